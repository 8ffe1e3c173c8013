//! What the Rust crate `hidreport` answers for descriptors, items and reports, as text.
mod cases;
mod chance;
mod coverage;
mod judge;
mod record;
mod rules;
mod show;
mod show_items;

use std::path::Path;
use std::process::ExitCode;

const USAGE: &str = "usage: driver cases SEED COUNT | judge FILE | record SEED FOLDER";

fn main() -> ExitCode {
    // A panic of the crate is an answer like any other.
    std::panic::set_hook(Box::new(|_| {}));
    let words: Vec<String> = std::env::args().skip(1).collect();
    let words: Vec<&str> = words.iter().map(String::as_str).collect();
    let done = match words.as_slice() {
        ["cases", seed, count] => print_cases(seed, count),
        ["judge", file] => judge::judge(file),
        ["record", seed, folder] => record_runs(seed, folder),
        _ => Err(USAGE.to_string()),
    };
    match done {
        Ok(()) => ExitCode::SUCCESS,
        Err(message) => {
            eprintln!("{message}");
            ExitCode::FAILURE
        }
    }
}

fn number(word: &str) -> Result<u64, String> {
    word.parse().map_err(|_| format!("not a number: {word}"))
}

fn print_cases(seed: &str, count: &str) -> Result<(), String> {
    for case in cases::compared(number(seed)?, number(count)?) {
        print!("{}", case.text());
    }
    Ok(())
}

fn record_runs(seed: &str, folder: &str) -> Result<(), String> {
    record::record(number(seed)?, Path::new(folder)).map_err(|error| format!("{folder}: {error}"))
}
