//! How long the package in rust/ takes beside the Rust crate, whose names it has: for each descriptor
//! a parse and its drop, and every value of one report of each kind by every field's `extract`; and
//! for more and more collections and arrays. Below ours stands the library for C, by one call each.
//! usage: beside FOLDER LIST
use crate::facts::Frames;
use crate::summary::{Measured, Ratio};
use crate::timing::{Sample, in_rounds, keep_memory, sample_of, sample_of_rounds};
use std::panic::catch_unwind;
use std::time::Instant;

#[path = "../../measured/src/descriptors.rs"]
mod descriptors;
#[path = "../../measured/src/facts.rs"]
mod facts;
#[allow(dead_code)]
#[path = "../../measured/src/summary.rs"]
mod summary;
#[allow(dead_code)]
#[path = "../../measured/src/timing.rs"]
mod timing;

mod crate_side {
    use ::theirs as hidreport;
    include!("../../measured/src/parts.rs");
}
#[allow(dead_code)]
mod our_side {
    use ::ours as hidreport;
    include!("../../measured/src/parts.rs");
}

const RATIOS: [Ratio; 2] = [
    Ratio::new("parse", 0, 1),
    Ratio::new("read by fields", 2, 3),
];

/// What grows: bytes that stand again and again.
const GROWING: [(&str, &[u8]); 2] = [
    ("collections", &[0xa1, 0, 0x09, 0x30, 0x81, 2, 0xc0]),
    ("arrays", &[0x09, 0x30, 0x81, 0]),
];
const SIZES: [usize; 3] = [1 << 10, 1 << 13, 1 << 16];

fn main() -> Result<(), String> {
    let words: Vec<String> = std::env::args().collect();
    let [_, folder, list] = words.as_slice() else {
        return Err("usage: beside FOLDER LIST".to_string());
    };
    keep_memory();
    std::panic::set_hook(Box::new(|_| {}));
    let descriptors = descriptors::all(folder, list)?;
    let mut refused = Vec::new();
    let mut entries = Vec::new();
    for descriptor in &descriptors {
        match frames_of(&descriptor.bytes) {
            Ok(frames) => entries.push((descriptor.name.as_str(), &descriptor.bytes, frames)),
            Err(reason) => refused.push(format!("{}: {reason}", descriptor.name)),
        }
    }
    print_ratios(&entries);
    println!();
    print_growth();
    println!(
        "\nNot measured, as not both answer the same ({}):\n",
        refused.len()
    );
    refused.iter().for_each(|line| println!("- {line}"));
    Ok(())
}

/// Frames of a descriptor, where both have the same facts and the same values.
fn frames_of(bytes: &[u8]) -> Result<Frames, String> {
    let compared = catch_unwind(|| {
        let frames = crate_side::frames(bytes, 1)?;
        let facts = (crate_side::facts(bytes), our_side::facts(bytes));
        let values = (
            crate_side::read(bytes, &frames, 1),
            our_side::read(bytes, &frames, 1),
        );
        match (facts.0 == facts.1, values.0 == values.1) {
            (true, true) => Ok(frames),
            (true, false) => Err("other values".to_string()),
            (false, _) => Err("other fields".to_string()),
        }
    });
    compared.unwrap_or(Err("the crate panics".to_string()))
}

fn print_ratios(entries: &[(&str, &Vec<u8>, Frames)]) {
    let mut samples: Vec<Sample> = Vec::new();
    for (_, bytes, frames) in entries {
        samples.push(sample_of(move || our_side::parse(bytes)));
        samples.push(sample_of(move || crate_side::parse(bytes)));
        let read = move |rounds| our_side::read(bytes, frames, rounds);
        samples.push(sample_of_rounds(read));
        let read = move |rounds| crate_side::read(bytes, frames, rounds);
        samples.push(sample_of_rounds(read));
    }
    let times = in_rounds(&samples);
    let measured: Vec<Measured> = entries
        .iter()
        .zip(times.chunks(4))
        .map(|((name, bytes, _), times)| Measured {
            name: name.to_string(),
            fields: crate_side::facts(bytes).fields,
            numbers: times.iter().map(|it| it.median()).collect(),
        })
        .collect();
    println!(
        "| `rust/` to the crate, {} descriptors | mean | sums | largest |",
        measured.len()
    );
    println!("|---|--:|--:|--:|");
    for ratio in &RATIOS {
        println!(
            "| {} |{}{}{}",
            ratio.name,
            ratio.mean(&measured),
            ratio.of_sums(&measured),
            ratio.largest(&measured)
        );
    }
}

fn print_growth() {
    println!("| parse and drop, ms | | 1 KB | 8 KB | 64 KB |");
    println!("|---|---|--:|--:|--:|");
    let sides: [(&str, fn(&[u8]) -> usize); 2] =
        [("`rust/`", our_side::parse), ("crate", crate_side::parse)];
    for (name, bytes) in GROWING {
        for (side, parse) in sides {
            let cells: String = SIZES.iter().map(|size| cell(bytes, *size, parse)).collect();
            println!("| {name} | {side} |{cells}");
        }
    }
}

/// The lowest of three times, behind the items that the first of these need.
fn cell(again: &[u8], size: usize, parse: fn(&[u8]) -> usize) -> String {
    let front = [0x05, 1, 0x15, 0, 0x25, 1, 0x75, 1, 0x95, 1];
    let repeated = again
        .iter()
        .copied()
        .cycle()
        .take(size / again.len() * again.len());
    let bytes: Vec<u8> = front.into_iter().chain(repeated).collect();
    let lowest = (0..3)
        .map(|_| {
            let begin = Instant::now();
            std::hint::black_box(parse(&bytes));
            begin.elapsed().as_secs_f64() * 1e3
        })
        .fold(f64::INFINITY, f64::min);
    format!(" {lowest:.2} |")
}
