//! Counts what each parse takes from the C library's heap. All sides take all memory there.
use sides::summary::{Measured, Ratio, class_cells, count_cells};
use sides::{CHROMIUM, CRATE, DETAILS, LISTED, OUTLINE, PARSERS};
use sides::{compare, compare_chromium, descriptors};
use std::ffi::c_void;
use std::hint::black_box;
use std::process::ExitCode;
use std::sync::atomic::{AtomicUsize, Ordering::Relaxed};

/// How many calls took or enlarged a block.
static TAKEN: AtomicUsize = AtomicUsize::new(0);

/// How many bytes they asked for.
static BYTES: AtomicUsize = AtomicUsize::new(0);

// The C library's own functions, behind the names that a program may define.
unsafe extern "C" {
    fn __libc_malloc(size: usize) -> *mut c_void;
    fn __libc_calloc(count: usize, size: usize) -> *mut c_void;
    fn __libc_realloc(block: *mut c_void, size: usize) -> *mut c_void;
}

fn count(size: usize) {
    TAKEN.fetch_add(1, Relaxed);
    BYTES.fetch_add(size, Relaxed);
}

#[unsafe(no_mangle)]
extern "C" fn malloc(size: usize) -> *mut c_void {
    count(size);
    // SAFETY: the caller's, as below.
    unsafe { __libc_malloc(size) }
}

#[unsafe(no_mangle)]
extern "C" fn calloc(number: usize, size: usize) -> *mut c_void {
    count(number.saturating_mul(size));
    unsafe { __libc_calloc(number, size) }
}

#[unsafe(no_mangle)]
unsafe extern "C" fn realloc(block: *mut c_void, size: usize) -> *mut c_void {
    count(size);
    unsafe { __libc_realloc(block, size) }
}

/// How many allocations a call makes, and of how many bytes together.
fn taken<T>(call: impl Fn() -> T) -> (usize, usize) {
    let before = (TAKEN.load(Relaxed), BYTES.load(Relaxed));
    black_box(call());
    (
        TAKEN.load(Relaxed) - before.0,
        BYTES.load(Relaxed) - before.1,
    )
}

const RATIOS: &[Ratio] = &[
    Ratio::new("`try_from` to the crate", LISTED, CRATE),
    Ratio::new("outline to the crate", OUTLINE, CRATE),
    Ratio::new("`try_from` to Chromium", LISTED, CHROMIUM),
    Ratio::new("outline to Chromium", OUTLINE, CHROMIUM),
];

/// The ratios of bytes over all descriptors, their sums, and what those of the folder take.
fn print(folder: &str, list: &str) -> Result<(), String> {
    std::panic::set_hook(Box::new(|_| {}));
    let shown = descriptors::of_folder(folder)?.len();
    let mut measured = Vec::new();
    let mut lines = Vec::new();
    for (descriptor, at) in descriptors::all(folder, list)?.iter().zip(0..) {
        let bytes = descriptor.bytes.as_slice();
        let Ok((facts, _)) = compare(bytes) else {
            continue;
        };
        let is_alike = compare_chromium(bytes, &facts).is_ok();
        let mut numbers = vec![f64::NAN; DETAILS];
        let mut line = format!("| {} | {} |", descriptor.name, facts.fields);
        for (what, parse) in PARSERS.iter().enumerate().take(DETAILS) {
            if what < CHROMIUM || is_alike {
                let (count, bytes) = taken(|| parse(bytes));
                numbers[what] = bytes as f64;
                line += &format!(" {count} | {bytes} |");
            } else {
                line += " | |";
            }
        }
        if at < shown {
            lines.push(line);
        }
        measured.push(Measured {
            name: descriptor.name.clone(),
            fields: facts.fields,
            numbers,
        });
    }
    print_ratios(&measured);
    println!(
        "\n| allocations and bytes of a parse | fields | `try_from` | | outline | | crate | \
         | Chromium | |"
    );
    println!("|---|{}", "--:|".repeat(9));
    lines.iter().for_each(|line| println!("{line}"));
    Ok(())
}

fn print_ratios(measured: &[Measured]) {
    println!(
        "| Ratio of bytes, fields: |{} all | sums | largest |",
        class_cells()
    );
    println!("|---|--:|--:|--:|--:|--:|--:|--:|---|");
    let counts = count_cells(measured.iter().map(|one| one.fields));
    println!("| descriptors |{counts} {} | | |", measured.len());
    for ratio in RATIOS {
        println!(
            "| {} |{}{}{}{}",
            ratio.name,
            ratio.class_means(measured),
            ratio.mean(measured),
            ratio.of_sums(measured),
            ratio.largest(measured),
        );
    }
    println!("\n| bytes of all that Chromium reads alike | |\n|---|--:|");
    for (what, name) in ["`try_from`", "outline", "crate", "Chromium"]
        .iter()
        .enumerate()
    {
        let alike = measured.iter().filter(|one| one.numbers[CHROMIUM] > 0.0);
        let sum: f64 = alike.map(|one| one.numbers[what]).sum();
        println!("| {name} | {sum:.0} |");
    }
}

fn main() -> ExitCode {
    let words: Vec<String> = std::env::args().skip(1).collect();
    let done = match words.as_slice() {
        [folder, list] => print(folder, list),
        _ => Err("usage: allocations FOLDER LIST".to_string()),
    };
    match done {
        Ok(()) => ExitCode::SUCCESS,
        Err(message) => {
            eprintln!("bench: {message}");
            ExitCode::FAILURE
        }
    }
}
