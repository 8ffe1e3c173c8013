//! The libraries that are measured, each behind the same functions.
#[cfg(feature = "chromium")]
pub mod chromium;
pub mod descriptors;
pub mod facts;
pub mod ours;
pub mod summary;
pub mod theirs;

use facts::{Facts, Frames};
use std::panic::{AssertUnwindSafe, catch_unwind};

/// What a library can be asked for. Each call drops what it made.
pub struct Side {
    pub name: &'static str,

    /// How many items there are.
    pub itemise: fn(&[u8]) -> usize,

    /// How many reports the device sends, `usize::MAX` where the descriptor is refused.
    pub parse: fn(&[u8]) -> usize,

    /// Parses, reads all fields of all frames so many times, and answers a mix of the values.
    pub read: fn(&[u8], &Frames, usize) -> u64,

    /// What the descriptor announces.
    pub facts: fn(&[u8]) -> Facts,
}

pub const OURS: Side = Side {
    name: "ours",
    itemise: ours::itemise,
    parse: ours::parse,
    read: ours::read,
    facts: ours::facts,
};

pub const THEIRS: Side = Side {
    name: "theirs",
    itemise: theirs::itemise,
    parse: theirs::parse,
    read: theirs::read,
    facts: theirs::facts,
};

/// The ways to parse a descriptor, by the numbers below.
pub const PARSERS: &[fn(&[u8]) -> usize] = &[
    ours::parse,
    ours::outline,
    theirs::parse,
    #[cfg(feature = "chromium")]
    chromium::parse,
    #[cfg(feature = "chromium")]
    chromium::details,
];
pub const LISTED: usize = 0;
pub const OUTLINE: usize = 1;
pub const CRATE: usize = 2;
pub const CHROMIUM: usize = 3;
pub const DETAILS: usize = 4;

/// Frames to read, and what the descriptor announces, where both libraries, and ours by each of its
/// ways, give the same items, and the same reports and fields.
pub fn compare(bytes: &[u8]) -> Result<(Facts, Frames), String> {
    caught(|| {
        let frames = theirs::frames(bytes, 1)?;
        let facts = compared(bytes, &frames)?;
        Ok((facts, frames))
    })
}

/// Whether both libraries, and ours by each of its ways, read the same values.
pub fn compare_values(bytes: &[u8], frames: &Frames) -> Result<(), String> {
    caught(|| {
        let values = (OURS.read)(bytes, frames, 1);
        if values != (THEIRS.read)(bytes, frames, 1) {
            return Err("other values in the Rust crate".to_string());
        }
        if values != ours::read_by_readers(bytes, frames, 1) {
            return Err("other values by readers".to_string());
        }
        Ok(())
    })
}

fn caught<T>(call: impl Fn() -> Result<T, String>) -> Result<T, String> {
    catch_unwind(AssertUnwindSafe(call))
        .unwrap_or_else(|_| Err("the Rust crate panics".to_string()))
}

fn compared(bytes: &[u8], frames: &Frames) -> Result<Facts, String> {
    let facts = (OURS.facts)(bytes);
    let others = (THEIRS.facts)(bytes);
    if facts != others {
        return Err(format!(
            "other reports or fields in the Rust crate: {} fields here, {} there",
            facts.fields, others.fields
        ));
    }
    if facts.fields == 0 || frames.size == 0 {
        return Err("refused, or without a field".to_string());
    }
    if facts != ours::outline_facts(bytes) {
        return Err("other reports or fields by the outline".to_string());
    }
    if (OURS.itemise)(bytes) != (THEIRS.itemise)(bytes) {
        return Err("other items in the Rust crate".to_string());
    }
    if (OURS.parse)(bytes) != (THEIRS.parse)(bytes) || (OURS.parse)(bytes) != ours::outline(bytes) {
        return Err("other reports".to_string());
    }
    Ok(facts)
}

/// Whether Chromium finds as many fields and bits, and the same usages.
#[cfg(feature = "chromium")]
pub fn compare_chromium(bytes: &[u8], facts: &Facts) -> Result<(), String> {
    let others = chromium::facts(bytes);
    let ours = [facts.fields, facts.bits, facts.usages];
    let theirs = [others.fields, others.bits, others.usages];
    for (what, (ours, theirs)) in ["fields", "bits"].iter().zip(ours.iter().zip(theirs)) {
        if *ours != theirs {
            return Err(format!("{ours} {what} here, {theirs} in Chromium"));
        }
    }
    if ours != theirs {
        return Err("other usages in Chromium".to_string());
    }
    Ok(())
}

#[cfg(not(feature = "chromium"))]
pub fn compare_chromium(_bytes: &[u8], _facts: &Facts) -> Result<(), String> {
    Err("Chromium's parser isn't built".to_string())
}
