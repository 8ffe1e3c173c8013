//! How the time of parsing grows with a descriptor.
use crate::growth_cases::{CASES, Case};
use crate::timing;
use sides::{CRATE, LISTED, OUTLINE, PARSERS};
use std::hint::black_box;
use std::panic::catch_unwind;
use std::time::Instant;

const SIZES: [usize; 5] = [1 << 10, 1 << 12, 1 << 14, 1 << 16, 1 << 18];

/// Seconds that a run may take. Whether a larger one would take more is judged by how the time grew
/// before.
const OUR_LIMIT: f64 = 2.0;
const THEIR_LIMIT: f64 = 1.0;

/// Time per n grown to so many times what it is at the smallest n counts as more than linear.
const NOTED: f64 = 4.0;

type Parse = fn(&[u8]) -> usize;

/// A run of one size.
enum Run {
    Took(f64),
    Refused,
    Panicked,
}

pub fn print() -> Result<(), String> {
    timing::keep_memory();
    std::panic::set_hook(Box::new(|_| {}));
    println!("| parse and drop, ns for each of n | | 1k | 4k | 16k | 64k | 256k | last to first |");
    println!("|---|---|--:|--:|--:|--:|--:|--:|");
    for case in CASES {
        for (name, parser, limit) in [
            ("`try_from`", LISTED, OUR_LIMIT),
            ("outline", OUTLINE, OUR_LIMIT),
            ("crate", CRATE, THEIR_LIMIT),
        ] {
            println!("{}", line(case, name, PARSERS[parser], limit));
        }
    }
    Ok(())
}

fn line(case: &Case, name: &str, parse: Parse, limit: f64) -> String {
    let mut line = format!("| {} | {name} |", case.name);
    let mut times: Vec<f64> = Vec::new();
    let mut seconds: Vec<f64> = Vec::new();
    let mut is_left_out = false;
    for n in SIZES {
        is_left_out |= expected(&seconds) > limit;
        let bytes = if is_left_out { None } else { (case.bytes)(n) };
        let Some(bytes) = bytes else {
            line += " |";
            continue;
        };
        match run(parse, &bytes) {
            Run::Took(time) => {
                seconds.push(time);
                times.push(time * 1e9 / n as f64);
                line += &format!(" {:.0} |", time * 1e9 / n as f64);
            }
            Run::Refused => line += " refused |",
            Run::Panicked => line += " panics |",
        }
    }
    line + &growth_text(&times)
}

fn growth_text(times: &[f64]) -> String {
    match times {
        [first, .., last] if last / first >= NOTED => format!(" **{:.1}** |", last / first),
        [first, .., last] => format!(" {:.1} |", last / first),
        _ => " |".to_string(),
    }
}

/// Seconds that the next size takes if the time goes on to grow as it did, or by 16 where it isn't
/// known.
fn expected(seconds: &[f64]) -> f64 {
    match seconds {
        [] => 0.0,
        [only] => only * 16.0,
        [.., before, last] => last * (last / before),
    }
}

/// Parses and drops a few times, and takes the least time.
fn run(parse: Parse, bytes: &[u8]) -> Run {
    let begin = Instant::now();
    let mut least = f64::MAX;
    let mut runs = 0;
    while runs == 0 || (runs < 20 && begin.elapsed().as_secs_f64() < 0.15) {
        let start = Instant::now();
        let Ok(answer) = catch_unwind(|| black_box(parse(bytes))) else {
            return Run::Panicked;
        };
        if answer == usize::MAX {
            return Run::Refused;
        }
        least = least.min(start.elapsed().as_secs_f64());
        runs += 1;
    }
    Run::Took(least)
}
