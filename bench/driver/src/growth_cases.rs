//! Descriptors that grow in one way each.

/// A way to grow: the descriptor of size n, where there is one.
pub struct Case {
    pub name: &'static str,
    pub bytes: fn(usize) -> Option<Vec<u8>>,
}

/// Usage Page (Generic Desktop), 0 to 127, one field of 8 bits.
const GLOBALS: &[u8] = &[0x05, 0x01, 0x15, 0x00, 0x25, 0x7f, 0x75, 0x08, 0x95, 0x01];

/// X, and an Input of it.
const FIELD: &[u8] = &[0x09, 0x30, 0x81, 0x02];
const COLLECTION: &[u8] = &[0xa1, 0x00];
const END: &[u8] = &[0xc0];
const PUSH: &[u8] = &[0xa4];
const POP: &[u8] = &[0xb4];

/// How many collections are open around siblings.
const AROUND: usize = 100;

pub const CASES: &[Case] = &[
    Case {
        name: "globals",
        bytes: |n| Some(repeated(&[], &[0x75, 0x08], n)),
    },
    Case {
        name: "fields, an item each",
        bytes: |n| Some(repeated(GLOBALS, FIELD, n)),
    },
    Case {
        name: "fields of one item",
        bytes: |n| Some(counted(&[0x09, 0x30], n, 0x02)),
    },
    Case {
        name: "elements of one array",
        bytes: |n| Some(counted(&[0x09, 0x30], n, 0x00)),
    },
    Case {
        name: "fields of one item, a usage each",
        bytes: |n| Some(counted(&usages(n), n, 0x02)),
    },
    Case {
        name: "usages of one array",
        bytes: |n| Some(counted(&usages(n), 1, 0x00)),
    },
    Case {
        name: "fields of one item, of a range",
        bytes: |n| Some(counted(&range(n)?, n, 0x02)),
    },
    Case {
        name: "a range of one array",
        bytes: |n| Some(counted(&range(n)?, 1, 0x00)),
    },
    Case {
        name: "usages of one collection",
        bytes: |n| Some(joined(&[GLOBALS, &usages(n), COLLECTION, FIELD, END])),
    },
    Case {
        name: "collections, nested",
        bytes: |n| Some(nested(&[COLLECTION], END, n)),
    },
    Case {
        name: "collections, nested, a field each",
        bytes: |n| Some(nested(&[COLLECTION, FIELD], END, n)),
    },
    Case {
        name: "collections, nested, one field",
        bytes: |n| Some(joined(&[&repeated(GLOBALS, COLLECTION, n), FIELD])),
    },
    Case {
        name: "collections, side by side",
        bytes: |n| Some(repeated(GLOBALS, &joined(&[COLLECTION, END]), n)),
    },
    Case {
        name: "collections, side by side, a field each",
        bytes: |n| Some(repeated(GLOBALS, &joined(&[COLLECTION, FIELD, END]), n)),
    },
    Case {
        name: "collections, side by side in 100",
        bytes: |n| Some(repeated(&around(), &joined(&[COLLECTION, END]), n)),
    },
    Case {
        name: "collections, side by side in 100, a field each",
        bytes: |n| Some(repeated(&around(), &joined(&[COLLECTION, FIELD, END]), n)),
    },
    Case {
        name: "fields in 100 collections, an item each",
        bytes: |n| Some(repeated(&around(), FIELD, n)),
    },
    Case {
        name: "Push, nested",
        bytes: |n| Some(nested(&[PUSH], POP, n)),
    },
    Case {
        name: "Push, nested, a field each",
        bytes: |n| Some(nested(&[PUSH, &[0x75, 0x08], FIELD], POP, n)),
    },
    Case {
        name: "Push, side by side",
        bytes: |n| Some(repeated(GLOBALS, &joined(&[PUSH, POP]), n)),
    },
    Case {
        name: "Push, side by side, a field each",
        bytes: |n| {
            Some(repeated(
                GLOBALS,
                &joined(&[PUSH, &[0x75, 0x10], FIELD, POP]),
                n,
            ))
        },
    },
    Case {
        name: "Push behind n usages, side by side",
        bytes: |n| {
            Some(repeated(
                &joined(&[GLOBALS, &usages(n)]),
                &joined(&[PUSH, POP]),
                n,
            ))
        },
    },
    Case {
        name: "report ids, a field each",
        bytes: |n| Some(with_ids(n)),
    },
];

fn joined(parts: &[&[u8]]) -> Vec<u8> {
    parts.concat()
}

/// A part n times, behind another.
fn repeated(front: &[u8], part: &[u8], n: usize) -> Vec<u8> {
    joined(&[front, &part.repeat(n)])
}

/// What opens n times, and then what ends it n times.
fn nested(open: &[&[u8]], end: &[u8], n: usize) -> Vec<u8> {
    joined(&[GLOBALS, &joined(open).repeat(n), &end.repeat(n)])
}

/// An Input of so many fields or elements, behind local items.
fn counted(locals: &[u8], count: usize, flags: u8) -> Vec<u8> {
    let count = (count as u32).to_le_bytes();
    joined(&[GLOBALS, &[0x97], &count, locals, &[0x81, flags]])
}

/// So many usages, one by one.
fn usages(n: usize) -> Vec<u8> {
    let mut bytes = Vec::new();
    for usage in 0..n {
        bytes.push(0x0a);
        bytes.extend_from_slice(&(usage as u16).to_le_bytes());
    }
    bytes
}

/// A range of so many usages, where a page has that many.
fn range(n: usize) -> Option<Vec<u8>> {
    let last = u16::try_from(n - 1).ok()?.to_le_bytes();
    Some(joined(&[&[0x19, 0x00, 0x2a], &last]))
}

fn around() -> Vec<u8> {
    repeated(GLOBALS, COLLECTION, AROUND)
}

/// Fields of reports 1 to 255 in turn.
fn with_ids(n: usize) -> Vec<u8> {
    let mut bytes = GLOBALS.to_vec();
    for field in 0..n {
        bytes.extend_from_slice(&[0x85, (field % 255 + 1) as u8]);
        bytes.extend_from_slice(FIELD);
    }
    bytes
}
