//! Times of each report by itself: a reader's beside those of every field, by how many values the
//! report has.
use crate::timing::{Sample, in_rounds, keep_memory, sample_of_rounds};
use sides::facts::Frames;
use sides::{compare, compare_values, descriptors, ours, theirs};

/// Classes: up to so many values.
const CLASSES: [(&str, u64); 5] = [
    ("1", 1),
    ("2 to 4", 4),
    ("5 to 12", 12),
    ("13 to 40", 40),
    ("more", u64::MAX),
];

/// A report that both libraries read alike.
struct Entry<'a> {
    bytes: &'a [u8],
    place: usize,
    frames: Frames,
    values: u64,
}

pub fn print(folder: &str, list: &str) -> Result<(), String> {
    keep_memory();
    std::panic::set_hook(Box::new(|_| {}));
    let descriptors = descriptors::all(folder, list)?;
    let mut entries = Vec::new();
    for descriptor in &descriptors {
        let bytes = descriptor.bytes.as_slice();
        let Ok((_, frames)) = compare(bytes) else {
            continue;
        };
        if compare_values(bytes, &frames).is_ok() {
            add_reports(&mut entries, bytes, &frames)?;
        }
    }
    let mut samples: Vec<Sample> = Vec::new();
    for entry in &entries {
        samples.push(sample_of_rounds(|rounds| {
            ours::read_report_by_reader(entry.bytes, entry.place, &entry.frames, rounds)
        }));
        samples.push(sample_of_rounds(|rounds| {
            ours::read_report(entry.bytes, entry.place, &entry.frames, rounds)
        }));
    }
    let times: Vec<f64> = in_rounds(&samples).iter().map(|it| it.median()).collect();
    println!("| Values of a report | reports | ns a value, by a reader | to by fields | largest |");
    println!("|---|--:|--:|--:|--:|");
    let mut least = 0;
    for (name, most) in CLASSES {
        let of_class: Vec<(u64, f64, f64)> = entries
            .iter()
            .zip(times.chunks(2))
            .filter(|(entry, times)| {
                entry.values > least && entry.values <= most && times.iter().all(|it| *it > 0.0)
            })
            .map(|(entry, times)| (entry.values, times[0], times[1]))
            .collect();
        println!("| {name} |{}", cells(&of_class));
        least = most;
    }
    Ok(())
}

/// The reports of a descriptor that have values, each with its part of the frames.
fn add_reports<'a>(
    entries: &mut Vec<Entry<'a>>,
    bytes: &'a [u8],
    frames: &Frames,
) -> Result<(), String> {
    let mut first = 0;
    for (place, (size, values)) in theirs::report_sizes(bytes).into_iter().enumerate() {
        let parts = frames.bytes.chunks_exact(frames.size);
        let own: Vec<u8> = parts
            .flat_map(|frame| &frame[first..first + size])
            .copied()
            .collect();
        let frames = Frames { bytes: own, size };
        first += size;
        if values == 0 {
            continue;
        }
        if ours::read_report(bytes, place, &frames, 1)
            != ours::read_report_by_reader(bytes, place, &frames, 1)
        {
            return Err("other values of a report by a reader".to_string());
        }
        entries.push(Entry {
            bytes,
            place,
            frames,
            values,
        });
    }
    Ok(())
}

/// How many there are, the mean time of a value, the mean ratio and the largest: geometric means, in
/// which each report has the same weight.
fn cells(reports: &[(u64, f64, f64)]) -> String {
    let mean = |numbers: &mut dyn Iterator<Item = f64>| {
        let sum: f64 = numbers.map(f64::ln).sum();
        (sum / reports.len() as f64).exp()
    };
    let a_value = |(values, time, _): &(u64, f64, f64)| time / (*values as f64) / FRAMES;
    let largest = reports.iter().map(|it| it.1 / it.2).fold(0.0, f64::max);
    format!(
        " {} | {:.1} | {:.2} | {largest:.2} |",
        reports.len(),
        mean(&mut reports.iter().map(a_value)),
        mean(&mut reports.iter().map(|it| it.1 / it.2)),
    )
}

const FRAMES: f64 = Frames::COUNT as f64;
