//! Whether recorded descriptors have everything that they are to show together.
use crate::cases::{Case, bytes_of};
use std::collections::BTreeSet;

/// What a descriptor has that recorded runs are to have, by name.
fn features(bytes: &[u8], answer: &str) -> BTreeSet<String> {
    let mut found = BTreeSet::new();
    let mut place = 0;
    while place < bytes.len() {
        let header = bytes[place];
        let width = [0, 1, 2, 4][usize::from(header & 3)];
        found.insert(format!("header {header:02x}"));
        let data = bytes.get(place + 1..place + 1 + width).unwrap_or(&[]);
        match (header & 0xfc, data) {
            (0xa0, [kind, ..]) => {
                found.insert(format!("kind {:02x}", (*kind).min(0x81).clamp(0, 0x81)));
            }
            (0x80 | 0x90 | 0xb0, [low, rest @ ..]) => {
                let flags = u16::from(*low) | rest.first().map_or(0, |high| u16::from(*high) << 8);
                for flag in (0..9).filter(|flag| flags & 1 << flag != 0) {
                    found.insert(format!("flag {flag} of {:02x}", header & 0xfc));
                }
            }
            _ => {}
        }
        place += 1 + width;
    }
    for line in answer.lines() {
        found.extend(features_of_line(line));
    }
    found
}

fn features_of_line(line: &str) -> Vec<String> {
    let words: Vec<&str> = line.split_whitespace().collect();
    match words.as_slice() {
        ["refused", "at", _, message @ ..] => vec![message.join(" ")],
        ["variable" | "array" | "constant", ..] => {
            let named = ["from", "to", "unit", "exponent", "range", "signed", "unsigned"];
            let mut all: Vec<String> = vec![words[0].to_string()];
            all.extend(named.iter().filter(|name| words.contains(name)).map(|name| name.to_string()));
            all
        }
        [direction, ..] => {
            let named = ["none:", "found:", "id", "another", "outside"];
            let found = named.iter().filter(|name| words.contains(name)).map(|name| name.to_string());
            found.chain([direction.to_string()]).collect()
        }
        [] => vec![],
    }
}

/// What all recorded descriptors together have to have.
fn wanted() -> BTreeSet<String> {
    // Main items of other tags are refused whatever their size code is.
    let known = [0x80, 0x90, 0xa0, 0xb0, 0xc0];
    let headers = (0..=255u8).filter(|header| header & 0x0c != 0 || known.contains(&(header & 0xfc)));
    let headers = headers.filter(|header| *header != 0xfe);
    let mut all: BTreeSet<String> = headers.map(|header| format!("header {header:02x}")).collect();
    all.extend([0, 1, 2, 3, 4, 5, 6, 7, 0x7f, 0x80, 0x81].iter().map(|kind| format!("kind {kind:02x}")));
    for item in ["80", "90", "b0"] {
        all.extend((0..9).map(|flag| format!("flag {flag} of {item}")));
    }
    let names = [
        "variable", "array", "constant", "from", "to", "unit", "exponent", "range", "signed",
        "unsigned", "input", "output", "feature", "none:", "found:", "id", "another", "outside",
        "Empty report descriptor", "Insufficient data", "Too many Pops, not enough Pushes",
        "Too many EndCollection", "Missing UsageMaximum in locals", "Missing UsagePage in globals",
        "Missing Usages for main item", "Invalid data: Invalid item tag 0b000000",
        "Invalid data: Invalid item tag 0b11110000",
    ];
    all.extend(names.iter().map(|name| name.to_string()));
    all
}

/// What is wanted and none of these descriptors with their answers has.
pub fn missing(blocks: &[Vec<Case>]) -> Vec<String> {
    let mut found = BTreeSet::new();
    for block in blocks {
        let digits = block[0].question.trim_start_matches("shape ");
        let answers: String = block.iter().map(|case| case.answer.as_str()).collect();
        found.extend(features(&bytes_of(digits).unwrap(), &answers));
    }
    wanted().difference(&found).cloned().collect()
}
