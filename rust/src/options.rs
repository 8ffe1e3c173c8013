//! How a descriptor is read.
use crate::c;

pub use crate::c::{Push as PushKeeps, UsagesBy};

/// How a descriptor is read. By default as [`ReportDescriptor::try_from`](crate::ReportDescriptor)
/// reads it: a Push keeps all items, usages are found by the letter of the standard, and nothing is
/// limited.
#[derive(Clone, Copy, Debug, PartialEq, Eq)]
pub struct ParseOptions {
    /// What a Push keeps for its Pop (Section 6.2.2.7); as Linux reads it is global items alone,
    /// whatever is said here.
    pub push_keeps: PushKeeps,
    /// By which rule an item finds its usages (Section 6.2.2.8).
    pub usages: UsagesBy,
    /// The most that may be listed: a field counts 1, with 1 for each usage of an array, for each
    /// collection around the field and for each usage of that; so does a collection, with 1 for
    /// each of its usages. With a limit a descriptor has at most 65,536 bytes. `usize::MAX` is no
    /// limit.
    pub limit: Option<usize>,
}

impl ParseOptions {
    /// For bytes that nobody vouches for: a limit of 65,536.
    pub fn bounded() -> ParseOptions {
        ParseOptions { limit: Some(c::DEFAULT_LIMIT), ..ParseOptions::default() }
    }

    /// What a Linux machine reads in a descriptor: what it takes is mended first, what it refuses is
    /// [`InvalidData`](crate::ParserError::InvalidData) at its item. For remappers, recorders and
    /// tests of devices.
    pub fn as_linux() -> ParseOptions {
        ParseOptions { usages: UsagesBy::Linux, ..ParseOptions::as_hosts() }
    }

    /// For a repair, and for what it writes: a Push keeps global items alone, and usages are found as
    /// Linux finds them.
    pub fn as_hosts() -> ParseOptions {
        ParseOptions { push_keeps: PushKeeps::Globals, usages: UsagesBy::Hosts, limit: None }
    }
}

impl Default for ParseOptions {
    fn default() -> ParseOptions {
        ParseOptions { push_keeps: PushKeeps::All, usages: UsagesBy::Standard, limit: None }
    }
}

impl From<ParseOptions> for c::Options {
    fn from(options: ParseOptions) -> c::Options {
        c::Options {
            limit: options.limit.unwrap_or(c::NO_LIMIT),
            push: match options.usages {
                UsagesBy::Linux => PushKeeps::Globals,
                UsagesBy::Standard | UsagesBy::Hosts => options.push_keeps,
            },
            usages: options.usages,
        }
    }
}
