//! What the program `hidreport_cases` prints of cases that the Rust crate answered: those that differ as docs/DIFFERENCES.md
//! says, and the others.
use crate::cases::{bytes_of, has_long_item};
use std::collections::BTreeMap;

/// A question that is answered otherwise here.
#[derive(Default)]
struct Differing {
    question: String,
    theirs: String,
    ours: String,
}

/// Prints how many questions were asked, how many differ for each known reason, and every other difference.
pub fn judge(file: &str) -> Result<(), String> {
    let text = std::fs::read_to_string(file).map_err(|error| format!("{file}: {error}"))?;
    let mut reasons: BTreeMap<&str, usize> = BTreeMap::new();
    let mut unexplained = 0;
    for case in differing(&text) {
        match reason(&case.question, &case.theirs, &case.ours) {
            Some(reason) => *reasons.entry(reason).or_default() += 1,
            None => {
                unexplained += 1;
                println!("{}\n--- the Rust crate\n{}--- here\n{}", case.question, case.theirs, case.ours);
            }
        }
    }
    // The last lines count what was asked.
    for line in text.lines().rev().take(8).filter(|line| line.starts_with(|letter: char| letter.is_ascii_digit())) {
        println!("asked: {line}");
    }
    for (reason, count) in reasons {
        println!("{count:8} {reason}");
    }
    println!("{unexplained:8} differ in a way that docs/DIFFERENCES.md doesn't explain");
    match unexplained {
        0 => Ok(()),
        _ => Err("the two differ".to_string()),
    }
}

/// The blocks `FILE:LINE: QUESTION`, `wanted:` with lines, `got:` with lines, and an empty line.
fn differing(text: &str) -> Vec<Differing> {
    let mut all: Vec<Differing> = vec![];
    let mut lines = text.lines().peekable();
    while let Some(line) = lines.next() {
        if lines.peek() != Some(&"wanted:") {
            continue;
        }
        lines.next();
        let question = line.splitn(3, ':').nth(2).unwrap_or_default().trim_start().to_string();
        let mut case = Differing { question, ..Differing::default() };
        while let Some(line) = lines.next_if(|line| *line != "got:") {
            case.theirs += &format!("{line}\n");
        }
        lines.next();
        while let Some(line) = lines.next_if(|line| !line.is_empty()) {
            case.ours += &format!("{line}\n");
        }
        all.push(case);
    }
    all
}

/// Why both answers are as they should be; none where they are not.
fn reason(case: &str, theirs: &str, ours: &str) -> Option<&'static str> {
    let bytes = case.split(' ').nth(1).and_then(bytes_of).unwrap_or_default();
    if has_long_item(&bytes) {
        return Some("have an item headed FE, which is a long one here");
    }
    if case.starts_with("item ") {
        return item_reason(case, theirs, ours);
    }
    run_reason(theirs, ours)
}

/// A reader that panics at a length, or at no bytes; a usage of page 0 that is written short.
fn item_reason(case: &str, theirs: &str, ours: &str) -> Option<&'static str> {
    if theirs.starts_with("panics: ") {
        let digits = case.len() - "item ".len();
        let size = format!("invalid: Size {} cannot happen\n", digits / 2 - usize::from(digits > 1));
        if ours == size {
            return Some("are lengths at which a reader of items panics there");
        }
        return (case == "item -" && ours == "insufficient\n")
            .then_some("are readers of no bytes that panic there");
    }
    let (item, written) = theirs.trim_end().split_once(" = ")?;
    let (same_item, written_here) = ours.trim_end().split_once(" = ")?;
    let id = item.strip_prefix("Usage 0 ")?.strip_suffix(" prefix 08")?;
    let id: u16 = id.parse().ok()?;
    let [low, high] = id.to_le_bytes();
    let long = format!("0b{low:02x}{high:02x}0000");
    (item == same_item && written != written_here && written_here == long)
        .then_some("are usages of page 0, which are written short there")
}

/// A usage without a page, at which parsing panics; sums that overflow there.
fn run_reason(theirs: &str, ours: &str) -> Option<&'static str> {
    let (place, message) = theirs.trim_end().strip_prefix("panics at ")?.split_once(": ")?;
    if message == "Missing UsagePage in globals" {
        return (ours == format!("refused at {place}: {message}\n"))
            .then_some("are usages without a page, at which parsing panics there");
    }
    (message == "attempt to add with overflow" && ours == "refused: out of bounds\n")
        .then_some("are sums of sizes that overflow there")
}
