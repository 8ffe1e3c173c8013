//! The files of recorded runs, as cases of the crate `hidreport_cases`.
use crate::cases::{self, Case, bytes_of, has_long_item};
use crate::chance::{self, Chance};
use crate::coverage;
use crate::rules;
use std::io;
use std::path::Path;

/// How many descriptors are recorded.
const DESCRIPTORS: usize = 2000;

/// How many reports are read by each of them that has some.
const READINGS: usize = 17;

/// No answer of a descriptor by chance is longer.
const LONGEST: usize = 1500;

/// How many descriptors a file has.
const ROWS: usize = 250;

const HEAD: &str = "# What the Rust crate `hidreport` 0.6.0, unchanged, answered in recorded runs.\n# Made by `compare/record`; not to be changed by hand.\n";

/// Writes the files into a folder.
pub fn record(seed: u64, folder: &Path) -> io::Result<()> {
    let descriptors = descriptors(seed)?;
    for (place, chunk) in descriptors.chunks(ROWS).enumerate() {
        let cases: Vec<String> = chunk.iter().map(|block| block_text(block)).collect();
        let file = format!("recorded_descriptors_{}.txt", place + 1);
        std::fs::write(folder.join(file), format!("{HEAD}\n{}", cases.join("\n")))?;
    }
    let (headers, items, lists) = (headers(), items(), lists(seed));
    std::fs::write(folder.join("recorded_headers.txt"), format!("{HEAD}# Where the crate panics, the message of its panic.\n\n{}", block_text(&headers)))?;
    std::fs::write(folder.join("recorded_items.txt"), format!("{HEAD}\n{}", block_text(&items)))?;
    std::fs::write(folder.join("recorded_lists.txt"), format!("{HEAD}\n{}", block_text(&lists)))?;
    let readings: usize = descriptors.iter().map(|block| block.len() - 1).sum();
    println!("{} headers, {} items, {} lists", headers.len(), items.len(), lists.len());
    println!("{} descriptors, {readings} readings", descriptors.len());
    Ok(())
}

fn block_text(cases: &[Case]) -> String {
    cases.iter().map(Case::text).collect()
}

/// Descriptors by rule and by chance that the Rust crate answers without a panic, each with its readings.
fn descriptors(seed: u64) -> io::Result<Vec<Vec<Case>>> {
    let mut chance = Chance::new(seed);
    let mut blocks = vec![];
    for descriptor in rules::descriptors() {
        keep(&mut chance, &descriptor, 4000, &mut blocks);
    }
    while blocks.len() < DESCRIPTORS {
        let descriptor = chance::descriptor(&mut chance);
        // Most descriptors by chance are to be parsed.
        if Case::shape(&descriptor).answer.starts_with("refused") && blocks.len() % 8 != 0 {
            continue;
        }
        keep(&mut chance, &descriptor, LONGEST, &mut blocks);
    }
    let missing = coverage::missing(&blocks);
    match missing.is_empty() {
        true => Ok(blocks),
        false => Err(io::Error::other(format!("no recorded run has {missing:?}"))),
    }
}

fn keep(chance: &mut Chance, descriptor: &[u8], longest: usize, blocks: &mut Vec<Vec<Case>>) {
    let block = cases::with_reports(chance, descriptor, READINGS);
    let answer = &block[0].answer;
    if !answer.contains("panics") && answer.len() <= longest && !has_long_item(descriptor) {
        blocks.push(block);
    }
}

/// Each header with no to five bytes of data, by both readers.
fn headers() -> Vec<Case> {
    let mut all = vec![];
    for header in (0..=255u8).filter(|header| *header != 0xfe) {
        for length in 0..=5 {
            let bytes = [&[header][..], &cases::HEADER_DATA[..length]].concat();
            all.push(Case::item(&bytes));
            all.extend(Case::item_by_type(&bytes));
        }
    }
    for case in &mut all {
        case.answer = case.answer.replace("panics: ", "invalid: ");
    }
    all
}

fn items() -> Vec<Case> {
    let kinds = [0u8, 1, 2, 3, 4, 5, 6, 7, 8, 0x7f, 0x80, 0xff];
    let mut all: Vec<Vec<u8>> = kinds.iter().map(|kind| vec![0xa1, *kind]).collect();
    all.extend(cases::flag_bytes());
    let edges = ["7f", "80", "ff00", "ff7f", "0080", "00000100", "00000080", "80ffffff"];
    all.extend(cases::number_bytes(&edges));
    let mut all: Vec<Case> = all.iter().map(|bytes| Case::item(bytes)).collect();
    // A usage of page 0 is written short by the Rust crate.
    all.retain(|case| !case.answer.starts_with("Usage 0 "));
    all
}

fn lists(seed: u64) -> Vec<Case> {
    let mut chance = Chance::new(seed);
    let rules = [
        "05 09 1a0100 2b 03000900 7501 9503 81 02 c0 fc 01", "a4 b4 c4 0c", "", "7508 95", "0501 f0", "18",
    ];
    let mut all: Vec<Vec<u8>> = rules.iter().map(|digits| bytes_of(digits).unwrap()).collect();
    while all.len() < 200 {
        let length = 2 + chance.below(12) as usize;
        let bytes = chance.bytes(length);
        if !has_long_item(&bytes) {
            all.push(bytes);
        }
    }
    all.iter().map(|bytes| Case::list(bytes)).collect()
}
