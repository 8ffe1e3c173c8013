//! Measures this library, the Rust crate and Chromium's parser side by side.
mod growth;
mod growth_cases;
mod reports;
mod times;
mod timing;

use sides::facts::Frames;
use sides::{descriptors, ours, theirs};
use std::hint::black_box;
use std::process::ExitCode;

const USAGE: &str = "usage: driver times FOLDER LIST | reports FOLDER LIST | growth | \
    repeat FOLDER LIST NAME|all WHAT ROUNDS";

fn main() -> ExitCode {
    let words: Vec<String> = std::env::args().skip(1).collect();
    let words: Vec<&str> = words.iter().map(String::as_str).collect();
    let done = match words.as_slice() {
        ["times", folder, list] => times::print(folder, list),
        ["reports", folder, list] => reports::print(folder, list),
        ["growth"] => growth::print(),
        ["repeat", folder, list, name, what, rounds] => repeat(folder, list, name, what, rounds),
        _ => Err(USAGE.to_string()),
    };
    match done {
        Ok(()) => ExitCode::SUCCESS,
        Err(message) => {
            eprintln!("bench: {message}");
            ExitCode::FAILURE
        }
    }
}

/// One thing so many times, of one descriptor or of all on which the libraries answer the same, for
/// an instrument that counts the instructions of a whole run.
fn repeat(folder: &str, list: &str, name: &str, what: &str, rounds: &str) -> Result<(), String> {
    let rounds: usize = rounds.parse().map_err(|_| USAGE.to_string())?;
    std::panic::set_hook(Box::new(|_| {}));
    for descriptor in descriptors::all(folder, list)? {
        let bytes = descriptor.bytes.as_slice();
        if name == descriptor.name || (name == "all" && sides::compare(bytes).is_ok()) {
            repeat_one(bytes, what, rounds)?;
        }
    }
    Ok(())
}

fn repeat_one(bytes: &[u8], what: &str, rounds: usize) -> Result<(), String> {
    let call: fn(&[u8]) -> usize = match what {
        "itemise" => ours::itemise,
        "crate_itemise" => theirs::itemise,
        "parse" => ours::parse,
        "outline" => ours::outline,
        "crate_parse" => theirs::parse,
        #[cfg(feature = "chromium")]
        "chromium_parse" => sides::chromium::parse,
        _ => return read_or_write(bytes, what, rounds),
    };
    for _ in 0..rounds {
        black_box(call(bytes));
    }
    Ok(())
}

fn read_or_write(bytes: &[u8], what: &str, rounds: usize) -> Result<(), String> {
    let call: fn(&[u8], &Frames, usize) -> u64 = match what {
        "read" => ours::read,
        "read_by_readers" => ours::read_by_readers,
        "crate_read" => theirs::read,
        "write" => ours::write,
        _ => return Err(USAGE.to_string()),
    };
    let frames = theirs::frames(bytes, 1)?;
    if sides::compare_values(bytes, &frames).is_ok() {
        black_box(call(bytes, &frames, rounds));
    }
    Ok(())
}
