//! The functions of `include/hidreport.h` one by one, as safe functions: all `unsafe` of this
//! package is here. The header says what each answers.
mod alike;
mod lookup;
mod names;
mod numbers;
mod repairing;
mod scaling;
mod sys;
mod wholes;
mod writing;

pub use alike::{is_alike, Unread};
pub use lookup::{field_for, field_numbered, report_with};
pub use names::{
    collection_name, flag_words, item_name, page_by_name, page_name, usage_by_name, usage_name,
    usage_on_page,
};
pub use numbers::{
    CollectionKind, Direction, FieldKind, Mends, Push, Reason, Status, UnknownNumber, UsagesBy,
};
pub use repairing::{changes, repair, repair_message};
pub use scaling::{normalized, physical, Fraction};
pub use sys::{
    Change, Collection, Collections, Field, Flags, Group, Item, Measures, Options, Report, Run,
    Usages,
};
pub use wholes::{
    describe_collection_usages, describe_collections, describe_usages, find_usages, group_field,
    group_usage, groups, prepare, read, read_available, read_prepared, write, write_prepared,
};
pub(crate) use wholes::{
    describe_collection_usages_with_room, describe_collections_with_room, describe_usages_with_room,
};
pub use writing::{blank, insert, insert_all, null_value, value_of};

use std::error::Error;
use std::fmt;

/// A limit for bytes that nobody vouches for.
pub const DEFAULT_LIMIT: usize = 65_536;

/// No limit: a descriptor takes what memory it asks for.
pub const NO_LIMIT: usize = usize::MAX;

/// As much is there in most lists, at most; a longer one is asked for twice.
const FEW: usize = 64;

impl Default for Options {
    fn default() -> Options {
        Options { limit: DEFAULT_LIMIT, push: Push::All, usages: UsagesBy::Standard }
    }
}

/// Why a descriptor is refused, the offset of the item, and a text where there is one.
#[derive(Clone, Debug, PartialEq, Eq)]
pub struct Refusal {
    pub status: Status,
    pub offset: usize,
    pub message: String,
}

impl fmt::Display for Refusal {
    fn fmt(&self, f: &mut fmt::Formatter) -> fmt::Result {
        let Refusal { status, offset, message } = self;
        match (status, message.is_empty()) {
            (Status::InvalidData | Status::BudgetExceeded, true) => {
                write!(f, "{status} at offset {offset}")
            }
            (Status::InvalidData | Status::BudgetExceeded, false) => {
                write!(f, "{message} at offset {offset}")
            }
            _ => write!(f, "{status}"),
        }
    }
}

impl Error for Refusal {}

/// Why a call has no list: its status, and an offset.
#[derive(Clone, Copy, Debug, PartialEq)]
struct Unlisted {
    status: Status,
    offset: usize,
}

/// How many there are, or why there is no list.
fn counted(answer: sys::Answer) -> Result<usize, Unlisted> {
    let offset = answer.offset;
    match Status::of_answer(answer.status) {
        Ok(()) => Ok(answer.count),
        Err(status) => Err(Unlisted { status, offset }),
    }
}

/// All that a call has. It is asked with so much room first, and once more where that was too little;
/// either answer may be a refusal, since either takes memory.
fn listed<T: Clone>(
    guess: usize,
    empty: T,
    call: impl Fn(*mut T, usize) -> sys::Answer,
) -> Result<Vec<T>, Unlisted> {
    let mut list = with_room(guess, &empty)?;
    let mut count = counted(call(list.as_mut_ptr(), list.len()))?;
    if count > list.len() {
        list = with_room(count, &empty)?;
        count = counted(call(list.as_mut_ptr(), list.len()))?;
    }
    list.truncate(count);
    Ok(list)
}

/// A list of so many that a call fills.
fn with_room<T: Clone>(count: usize, empty: &T) -> Result<Vec<T>, Unlisted> {
    let mut list = Vec::new();
    list.try_reserve_exact(count)
        .map_err(|_| Unlisted { status: Status::OutOfMemory, offset: 0 })?;
    list.resize(count, empty.clone());
    Ok(list)
}

// SAFETY of all calls below: pointers and lengths are those of slices and lists that live until
// the call is over, and none that is written overlaps one that is read; no room is a length of 0.

fn text_of(call: impl Fn(*mut u8, usize) -> sys::Answer) -> Result<String, Status> {
    match listed(0, 0, call) {
        Ok(text) => Ok(String::from_utf8_lossy(&text).into_owned()),
        Err(unlisted) => Err(unlisted.status),
    }
}

/// What a descriptor is refused for, no text where it is accepted; the status where that can't be
/// said.
pub fn message(descriptor: &[u8], options: Options) -> Result<String, Status> {
    text_of(|text, room| unsafe {
        sys::hidreport_message(descriptor.as_ptr(), descriptor.len(), options, text, room)
    })
}

/// What `items` and `rebuild` refuse bytes for, as `message` says of the others.
pub fn items_message(descriptor: &[u8]) -> Result<String, Status> {
    text_of(|text, room| unsafe {
        sys::hidreport_items_message(descriptor.as_ptr(), descriptor.len(), text, room)
    })
}

/// A list in a descriptor: `call` has its pointer, its length and the options, then the array.
fn listed_in<T: Clone>(
    descriptor: &[u8],
    options: Options,
    guess: usize,
    empty: T,
    call: impl Fn(*const u8, usize, *mut T, usize) -> sys::Answer,
) -> Result<Vec<T>, Refusal> {
    let (bytes, length) = (descriptor.as_ptr(), descriptor.len());
    listed(guess, empty, |list, room| call(bytes, length, list, room)).map_err(|unlisted| Refusal {
        status: unlisted.status,
        offset: unlisted.offset,
        message: message(descriptor, options).unwrap_or_default(),
    })
}

/// The reports that a descriptor announces in a direction.
pub fn reports(
    descriptor: &[u8],
    options: Options,
    direction: Direction,
) -> Result<Vec<Report>, Refusal> {
    let empty = Report::default();
    listed_in(descriptor, options, FEW, empty, |bytes, length, list, room| unsafe {
        sys::hidreport_reports(bytes, length, options, direction.into(), list, room)
    })
}

/// The fields that a descriptor announces in a direction.
pub fn describe(
    descriptor: &[u8],
    options: Options,
    direction: Direction,
) -> Result<Vec<Field>, Refusal> {
    describe_with_room(descriptor, options, direction, FEW)
}

/// What `describe` answers, asked for once where so much room is enough.
pub(crate) fn describe_with_room(
    descriptor: &[u8],
    options: Options,
    direction: Direction,
    room: usize,
) -> Result<Vec<Field>, Refusal> {
    let empty = Field::default();
    listed_in(descriptor, options, room, empty, |bytes, length, list, room| unsafe {
        sys::hidreport_describe(bytes, length, options, direction.into(), list, room)
    })
}

/// The fields of the report that these bytes are of.
pub fn find(
    descriptor: &[u8],
    options: Options,
    direction: Direction,
    report: &[u8],
) -> Result<Vec<Field>, Refusal> {
    let (first, size) = (report.as_ptr(), report.len());
    let empty = Field::default();
    listed_in(descriptor, options, FEW, empty, |bytes, length, list, room| unsafe {
        sys::hidreport_find(bytes, length, options, direction.into(), first, size, list, room)
    })
}

/// The usages of the field with this number, each with its page in the upper 16 bits.
pub fn usages(descriptor: &[u8], options: Options, field: u32) -> Result<Vec<u32>, Refusal> {
    listed_in(descriptor, options, FEW, 0, |bytes, length, list, room| unsafe {
        sys::hidreport_usages(bytes, length, options, field, list, room)
    })
}

/// The collections that the field with this number lies in, outermost first.
pub fn collections(
    descriptor: &[u8],
    options: Options,
    field: u32,
) -> Result<Vec<Collection>, Refusal> {
    let empty = Collection::default();
    listed_in(descriptor, options, FEW, empty, |bytes, length, list, room| unsafe {
        sys::hidreport_collections(bytes, length, options, field, list, room)
    })
}

/// All usages of collection `index` of these, counted from 0.
pub fn collection_usages(
    descriptor: &[u8],
    options: Options,
    field: u32,
    index: usize,
) -> Result<Vec<u32>, Refusal> {
    listed_in(descriptor, options, FEW, 0, |bytes, length, list, room| unsafe {
        sys::hidreport_collection_usages(bytes, length, options, field, index, list, room)
    })
}

fn items_refusal(descriptor: &[u8], unlisted: Unlisted) -> Refusal {
    Refusal {
        status: unlisted.status,
        offset: unlisted.offset,
        message: items_message(descriptor).unwrap_or_default(),
    }
}

/// Where the items of a descriptor stand.
pub fn items(descriptor: &[u8]) -> Result<Vec<Item>, Refusal> {
    listed(descriptor.len().min(FEW), Item::default(), |items, room| unsafe {
        sys::hidreport_items(descriptor.as_ptr(), descriptor.len(), items, room)
    })
    .map_err(|unlisted| items_refusal(descriptor, unlisted))
}

/// Where the items stand before the first that can't be read, or all: behind the last of them
/// stands what `items` refuses. Only want of memory is refused.
pub fn front_items(descriptor: &[u8]) -> Result<Vec<Item>, Status> {
    listed(descriptor.len().min(FEW), Item::default(), |items, room| unsafe {
        sys::hidreport_front_items(descriptor.as_ptr(), descriptor.len(), items, room)
    })
    .map_err(|unlisted| unlisted.status)
}

/// A descriptor written anew, each item in its shortest spelling.
pub fn rebuild(descriptor: &[u8]) -> Result<Vec<u8>, Refusal> {
    listed(descriptor.len(), 0, |bytes, room| unsafe {
        sys::hidreport_rebuild(descriptor.as_ptr(), descriptor.len(), bytes, room)
    })
    .map_err(|unlisted| items_refusal(descriptor, unlisted))
}

/// One value of a field in a report, counted from 0; else the status of the refusal.
pub fn value(field: &Field, report: &[u8], index: usize) -> Result<i64, Status> {
    let value = unsafe { sys::hidreport_value(field, report.as_ptr(), report.len(), index) };
    Status::of_answer(value.status).map(|()| value.number)
}

/// The values of a field in a report.
pub fn values(field: &Field, report: &[u8]) -> Result<Vec<i64>, Status> {
    listed(field.value_count.min(FEW), 0, |values, room| unsafe {
        sys::hidreport_values(field, report.as_ptr(), report.len(), values, room)
    })
    .map_err(|unlisted| unlisted.status)
}

/// The usage that a value of an array stands for, of the usages that `usages` lists for the field.
pub fn usage_of(field: &Field, value: i64, usages: &[u32]) -> Option<u32> {
    let usage = unsafe { sys::hidreport_usage_of(field, value, usages.as_ptr(), usages.len()) };
    usage.is_meant.then_some(usage.usage)
}

/// The version of the library, a byte each: that of the Rust crate, and the stage of the port.
pub fn version() -> [u8; 4] {
    // SAFETY: it has no arguments.
    unsafe { sys::hidreport_version() }.to_be_bytes()
}

#[cfg(test)]
mod tests {
    use super::*;

    const MOUSE: &[u8] = b"\x05\x01\x15\x81\x25\x7f\x75\x08\x95\x02\x09\x30\x09\x31\x81\x02";

    fn input_fields(descriptor: &[u8], report: &[u8]) -> Result<Vec<Field>, Refusal> {
        find(descriptor, Options::default(), Direction::Input, report)
    }

    #[test]
    fn a_mouse_moves() {
        let report = [0x05, 0xfb];
        let fields = input_fields(MOUSE, &report).unwrap();
        let usages: Vec<u32> = fields.iter().map(|field| field.usages.first).collect();
        assert_eq!(usages, [0x0001_0030, 0x0001_0031]);
        let read: Vec<_> = fields.iter().map(|field| values(field, &report)).collect();
        assert_eq!(read, [Ok(vec![5]), Ok(vec![-5])]);
        assert_eq!(values(&fields[1], &report[..1]), Err(Status::OutOfBounds));
        assert_eq!(FieldKind::try_from(fields[0].kind), Ok(FieldKind::Variable));
        assert_eq!(input_fields(MOUSE, &[]), Ok(vec![]));
    }

    #[test]
    fn a_refusal_has_its_place_and_its_text() {
        let refusal = input_fields(b"\x75\x08\xb4", &[0]).unwrap_err();
        assert_eq!((refusal.status, refusal.offset), (Status::InvalidData, 2));
        assert_eq!(refusal.message, "Too many Pops, not enough Pushes");
        assert_eq!(input_fields(&[], &[0]).unwrap_err().message, "Empty report descriptor");
        assert_eq!(items(&[]).unwrap_err().message, "Insufficient data");
        let told: Box<dyn Error> = Box::new(refusal);
        assert_eq!(told.to_string(), "Too many Pops, not enough Pushes at offset 2");
    }

    /// A call whose first answer, whose second, or neither is a refusal for want of memory.
    fn refusing(refused: usize) -> impl Fn(*mut u8, usize) -> sys::Answer {
        let calls = std::cell::Cell::new(0);
        move |_list, _room| {
            calls.set(calls.get() + 1);
            match calls.get() == refused {
                true => sys::Answer { count: 0, offset: 0, status: 4 },
                false => sys::Answer { count: 2, offset: 0, status: 0 },
            }
        }
    }

    #[test]
    fn want_of_memory_in_either_call_is_told() {
        let lacking = Err(Unlisted { status: Status::OutOfMemory, offset: 0 });
        assert_eq!(listed(0, 7, refusing(1)), lacking);
        assert_eq!(listed(0, 7, refusing(2)), lacking);
        assert_eq!(listed(0, 7, refusing(3)), Ok(vec![7, 7]));
        assert_eq!(listed(3, 7, refusing(1)), lacking);
        assert_eq!(listed(3, 7, refusing(2)), Ok(vec![7, 7]));
        assert_eq!(listed(usize::MAX, 7, refusing(3)), lacking);
        let endless = |_list, _room| sys::Answer { count: usize::MAX, offset: 0, status: 0 };
        assert_eq!(listed(0, 7u8, endless), lacking);
    }

    #[test]
    fn a_limit_is_kept() {
        let one = Options { limit: 1, ..Options::default() };
        let refusal = describe(MOUSE, one, Direction::Input).unwrap_err();
        assert_eq!((refusal.status, refusal.offset), (Status::BudgetExceeded, 14));
        assert_eq!(refusal.message, "budget exceeded");
    }
}
