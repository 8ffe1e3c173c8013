//! What is asked, with the answers of the Rust crate: descriptors with reports, items, and lists of items.
use crate::chance::{self, Chance};
use crate::rules;
use crate::show::{bytes_text, caught, readings_text, reads_signs_wrongly, shape_text};
use crate::show_items::{item_text, list_text};
use hidreport::{Report, ReportDescriptor};
use std::fmt::Write;

/// A question in one line, and the lines of its answer.
#[derive(Clone)]
pub struct Case {
    pub question: String,
    pub answer: String,
}

impl Case {
    fn new(kind: &str, bytes: &[u8], answer: String) -> Case {
        let digits = if bytes.is_empty() { "-".to_string() } else { bytes_text(bytes) };
        Case { question: format!("{kind} {digits}"), answer }
    }

    pub fn item(bytes: &[u8]) -> Case {
        Case::new("item", bytes, item_text(bytes))
    }

    /// The same by the reader of the type that the header names, where it names one.
    pub fn item_by_type(bytes: &[u8]) -> Option<Case> {
        let kind = *["main", "global", "local"].get(usize::from(bytes.first()? >> 2 & 3))?;
        Some(Case::new(kind, bytes, item_text(bytes)))
    }

    pub fn list(bytes: &[u8]) -> Case {
        Case::new("list", bytes, list_text(bytes))
    }

    pub fn shape(bytes: &[u8]) -> Case {
        Case::new("shape", bytes, shape_text(bytes))
    }

    /// As a file of cases has it: the answer below the question, two spaces in.
    pub fn text(&self) -> String {
        let mut text = format!("{}\n", self.question);
        for line in self.answer.lines() {
            let _ = writeln!(text, "  {line}");
        }
        text
    }
}

/// Whether an item is headed FE, which is a long one here (docs/DIFFERENCES.md).
pub fn has_long_item(bytes: &[u8]) -> bool {
    let mut place = 0;
    while let Some(header) = bytes.get(place) {
        if *header == 0xfe {
            return true;
        }
        place += 1 + [0, 1, 2, 4][usize::from(header & 3)];
    }
    false
}

/// The bytes of digits, whatever stands between them.
pub fn bytes_of(digits: &str) -> Option<Vec<u8>> {
    let digits: Vec<u32> = digits.chars().filter_map(|letter| letter.to_digit(16)).collect();
    let pairs = digits.chunks(2).map(|pair| match pair {
        [high, low] => Some((high * 16 + low) as u8),
        _ => None,
    });
    pairs.collect()
}

/// All cases of a comparison: the ones by rule, and `count` descriptors, lists and items by chance.
pub fn compared(seed: u64, count: u64) -> Vec<Case> {
    let mut chance = Chance::new(seed);
    let mut cases: Vec<Case> = item_bytes().iter().map(|bytes| Case::item(bytes)).collect();
    for descriptor in rules::descriptors() {
        cases.push(Case::list(&descriptor));
        cases.extend(with_reports(&mut chance, &descriptor, 2));
    }
    for _ in 0..count {
        let descriptor = chance::descriptor(&mut chance);
        cases.extend(with_reports(&mut chance, &descriptor, 2));
        let length = chance.below(12) as usize;
        cases.push(Case::list(&chance.bytes(length)));
        let length = chance.below(6) as usize;
        cases.push(Case::item(&chance.bytes(length)));
    }
    cases
}

/// Each header with no to five bytes of data, and the data on which an item's kind, sign or flags depend.
pub fn item_bytes() -> Vec<Vec<u8>> {
    let mut all = vec![];
    for header in 0..=255u8 {
        for length in 0..=5 {
            all.push([&[header][..], &HEADER_DATA[..length]].concat());
        }
    }
    all.extend(kind_bytes());
    all.extend(flag_bytes());
    all.extend(number_bytes(&EDGES));
    all
}

/// Data at the edges of each width.
const EDGES: [&str; 25] = [
    "00", "7f", "80", "ff", "0000", "7f00", "8000", "ff00", "0001", "ff7f", "0080", "ffff",
    "00000000", "ff000000", "ffff0000", "00000100", "ffff7f00", "ffffff7f", "00000080",
    "80ffffff", "7fffffff", "0080ffff", "ffffffff", "30000000", "30000100",
];

/// What stands behind each header.
pub const HEADER_DATA: [u8; 5] = [0x81, 0x02, 0x93, 0x04, 0xf5];

/// Every kind of collection.
pub fn kind_bytes() -> Vec<Vec<u8>> {
    (0..=255).map(|kind| vec![0xa1, kind]).collect()
}

/// Each flag of the three data items alone, and all but it.
pub fn flag_bytes() -> Vec<Vec<u8>> {
    let mut all = vec![];
    for header in [0x82, 0x92, 0xb2] {
        for flag in 0..16 {
            for flags in [1u16 << flag, !(1 << flag)] {
                all.push(vec![header, flags as u8, (flags >> 8) as u8]);
            }
        }
        all.push(vec![header - 1, 0]);
        all.push(vec![header + 1, 0, 0, 0xff, 0xff]);
    }
    all
}

/// The numbers of global and local items with these data.
pub fn number_bytes(edges: &[&str]) -> Vec<Vec<u8>> {
    let mut all = vec![];
    for tag in (0x00..=0xf0u8).step_by(16) {
        for prefix in [tag + 0x04, tag + 0x08] {
            for edge in edges {
                let data = bytes_of(edge).unwrap();
                let code = [1, 2, 0, 3][data.len() - 1];
                all.push([vec![prefix + code], data].concat());
            }
        }
    }
    all
}

/// A descriptor, and so many reports, where it has any: each second one as long as it should be, the others short, long or
/// of another id.
pub fn with_reports(chance: &mut Chance, descriptor: &[u8], count: usize) -> Vec<Case> {
    let mut cases = vec![Case::shape(descriptor)];
    let Ok(Ok(parsed)) = caught(|| ReportDescriptor::try_from(descriptor)) else {
        return cases;
    };
    let mut ids = vec![];
    let mut note = |report: &dyn Report| ids.push((*report.report_id(), report.size_in_bytes()));
    parsed.input_reports().iter().for_each(|report| note(report));
    parsed.output_reports().iter().for_each(|report| note(report));
    parsed.feature_reports().iter().for_each(|report| note(report));
    if ids.is_empty() || reads_signs_wrongly(&parsed) || has_long_item(descriptor) {
        return cases;
    }
    for place in 0..count {
        let (id, size) = ids[chance.below(ids.len() as u64) as usize];
        let is_whole = place % 2 == 0;
        let length = if is_whole { size.clamp(1, 64) } else { (chance.below(size.min(64) as u64 + 3) as usize).max(1) };
        let mut bytes = chance.bytes(length);
        if let (Some(id), true) = (id, is_whole || chance.below(3) > 0) {
            bytes[0] = u8::from(id);
        }
        cases.push(Case::new("read", &bytes, readings_text(&parsed, &bytes)));
    }
    cases
}
