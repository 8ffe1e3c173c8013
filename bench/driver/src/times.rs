//! Times of each descriptor, by each library and each of its ways.
use crate::timing::{Sample, in_rounds, keep_memory, sample_of, sample_of_rounds};
use sides::descriptors::{self, Descriptor};
use sides::facts::Frames;
use sides::summary::{Measured, Ratio, class_cells, count_cells};
use sides::{CHROMIUM, CRATE, DETAILS, LISTED, OUTLINE, PARSERS};
use sides::{compare, compare_chromium, compare_values, ours, theirs};

// What is timed: the five ways to parse (sides), and these.
const ITEMISE: usize = 5;
const CRATE_ITEMISE: usize = 6;
const REBUILD: usize = 7;
const READ: usize = 8;
const READERS: usize = 9;
const CRATE_READ: usize = 10;
const COUNT: usize = 11;

const RATIOS: &[Ratio] = &[
    Ratio::new("parse: `try_from` to the crate", LISTED, CRATE),
    Ratio::new("parse: outline to the crate", OUTLINE, CRATE),
    Ratio::new("parse: `try_from` to Chromium", LISTED, CHROMIUM),
    Ratio::new("parse: outline to Chromium", OUTLINE, CHROMIUM),
    Ratio::new(
        "parse: `try_from` to Chromium with details",
        LISTED,
        DETAILS,
    ),
    Ratio::new("parse: outline to Chromium with details", OUTLINE, DETAILS),
    Ratio::new("itemise, to the crate", ITEMISE, CRATE_ITEMISE),
    Ratio::new("read: by fields to the crate", READ, CRATE_READ),
    Ratio::new("read: by readers to the crate", READERS, CRATE_READ),
    Ratio::new("read: by readers to by fields", READERS, READ),
];

/// A descriptor on which the libraries answer the same.
struct Entry<'a> {
    descriptor: &'a Descriptor,
    fields: u64,
    frames: Frames,
    is_alike_in_chromium: bool,
    has_alike_values: bool,
}

/// The ratios over all descriptors, by how many fields they have, and the times of those of the
/// folder.
pub fn print(folder: &str, list: &str) -> Result<(), String> {
    keep_memory();
    std::panic::set_hook(Box::new(|_| {}));
    let shown = descriptors::of_folder(folder)?.len();
    let descriptors = descriptors::all(folder, list)?;
    let mut refused = Vec::new();
    let mut other = Vec::new();
    let mut unread = Vec::new();
    let mut entries = Vec::new();
    for descriptor in &descriptors {
        let bytes = descriptor.bytes.as_slice();
        let name = &descriptor.name;
        match compare(bytes) {
            Ok((facts, frames)) => {
                let compared = compare_chromium(bytes, &facts);
                let read = compare_values(bytes, &frames);
                entries.push(Entry {
                    descriptor,
                    fields: facts.fields,
                    frames,
                    is_alike_in_chromium: compared.is_ok(),
                    has_alike_values: read.is_ok(),
                });
                other.extend(compared.err().map(|reason| format!("{name}: {reason}")));
                unread.extend(read.err().map(|reason| format!("{name}: {reason}")));
            }
            Err(reason) => refused.push(format!("{name}: {reason}")),
        }
    }
    let (medians, lows) = measured(&entries);
    print_ratios(&medians, &lows);
    println!();
    let shown = shown.min(medians.len());
    print_times(&entries[..shown], &medians[..shown]);
    print_list("Not measured, as not all answer the same", &refused);
    print_list("Not measured beside Chromium", &other);
    print_list("Reports not read", &unread);
    Ok(())
}

/// Medians and lowest tenths of everything.
fn measured(entries: &[Entry]) -> (Vec<Measured>, Vec<Measured>) {
    let mut places = Vec::new();
    let mut samples = Vec::new();
    for (entry, at) in entries.iter().zip(0..) {
        for (what, sample) in samples_of(entry) {
            places.push((at, what));
            samples.push(sample);
        }
    }
    let mut medians: Vec<Measured> = entries.iter().map(nothing_of).collect();
    let mut lows: Vec<Measured> = entries.iter().map(nothing_of).collect();
    for ((entry, what), times) in places.iter().zip(in_rounds(&samples)) {
        medians[*entry as usize].numbers[*what] = times.median();
        lows[*entry as usize].numbers[*what] = times.low();
    }
    (medians, lows)
}

fn nothing_of(entry: &Entry) -> Measured {
    Measured {
        name: entry.descriptor.name.clone(),
        fields: entry.fields,
        numbers: vec![f64::NAN; COUNT],
    }
}

/// What is timed of a descriptor. A round of reading has some frames, and goes over all of them.
fn samples_of<'a>(entry: &'a Entry) -> Vec<(usize, Sample<'a>)> {
    let bytes = entry.descriptor.bytes.as_slice();
    let frames = &entry.frames;
    let mut samples: Vec<(usize, Sample)> = Vec::new();
    for (what, parse) in PARSERS.iter().enumerate() {
        if what < CHROMIUM || entry.is_alike_in_chromium {
            samples.push((what, sample_of(move || parse(bytes))));
        }
    }
    samples.push((ITEMISE, sample_of(move || ours::itemise(bytes))));
    samples.push((CRATE_ITEMISE, sample_of(move || theirs::itemise(bytes))));
    samples.push((REBUILD, sample_of(move || ours::rebuild(bytes))));
    if !entry.has_alike_values {
        return samples;
    }
    let read = move |rounds| ours::read(bytes, frames, rounds);
    samples.push((READ, sample_of_rounds(read)));
    let read = move |rounds| ours::read_by_readers(bytes, frames, rounds);
    samples.push((READERS, sample_of_rounds(read)));
    let read = move |rounds| theirs::read(bytes, frames, rounds);
    samples.push((CRATE_READ, sample_of_rounds(read)));
    samples
}

fn print_ratios(medians: &[Measured], lows: &[Measured]) {
    println!(
        "| Ratio of times, fields: |{} all | lowest tenth | sums | lowest tenth | largest |",
        class_cells()
    );
    println!("|---|--:|--:|--:|--:|--:|--:|--:|--:|--:|---|");
    let counts = count_cells(medians.iter().map(|one| one.fields));
    println!("| descriptors |{counts} {} | | | | |", medians.len());
    for ratio in RATIOS {
        println!(
            "| {} |{}{}{}{}{}{}",
            ratio.name,
            ratio.class_means(medians),
            ratio.mean(medians),
            ratio.mean(lows),
            ratio.of_sums(medians),
            ratio.of_sums(lows),
            ratio.largest(medians),
        );
    }
}

fn print_times(entries: &[Entry], medians: &[Measured]) {
    println!(
        "| µs | bytes | fields | `try_from` | outline | crate | Chromium | with details | itemise \
         | crate | rebuild | read: by fields | by readers | crate |"
    );
    println!("|---|{}", "--:|".repeat(13));
    for (entry, median) in entries.iter().zip(medians) {
        let mut line = format!(
            "| {} | {} | {} |",
            median.name,
            entry.descriptor.bytes.len(),
            median.fields
        );
        for (what, time) in median.numbers.iter().enumerate() {
            let frames = if what >= READ { Frames::COUNT } else { 1 };
            line += &time_cell(time / frames as f64);
        }
        println!("{line}");
    }
}

fn time_cell(time: f64) -> String {
    if time.is_nan() {
        " |".to_string()
    } else {
        format!(" {:.2} |", time / 1e3)
    }
}

fn print_list(what: &str, lines: &[String]) {
    if !lines.is_empty() {
        println!("\n{what} ({}):\n", lines.len());
        lines.iter().for_each(|line| println!("- {line}"));
    }
}
