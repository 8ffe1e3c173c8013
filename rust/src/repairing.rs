//! Descriptors that hosts accept, made such as are read.
use crate::c;
use crate::error::ParserError;
use crate::options::{ParseOptions, UsagesBy};

pub use crate::c::{Change, Reason};

/// What [`repair`] mends, and how what it writes is read.
#[derive(Clone, Copy, Debug, PartialEq, Eq)]
pub struct RepairOptions {
    /// How the repaired descriptor is read: by default as hosts find usages and keep a Push, which
    /// `UsagesBy::Linux` is here, too.
    pub parse: ParseOptions,
    /// Whether an item that is cut short is left out, with all bytes from there on. Linux refuses
    /// it.
    pub leave_out_cut_short: bool,
    /// Whether a negative maximum is written without a sign, where no negative minimum is in force.
    /// Linux always reads it so.
    pub unsigned_maxima: bool,
}

impl Default for RepairOptions {
    fn default() -> RepairOptions {
        RepairOptions {
            parse: ParseOptions::as_hosts(),
            leave_out_cut_short: false,
            unsigned_maxima: false,
        }
    }
}

/// A descriptor that was repaired.
#[derive(Clone, Debug, PartialEq)]
pub struct Repaired {
    /// Its bytes.
    pub bytes: Vec<u8>,
    /// What was changed, in the order of the offsets; nothing where it was read as it was.
    pub changes: Vec<Change>,
}

/// A descriptor that is read by these options, made of one that hosts accept, as Linux reads it:
/// the same where it is read as it is, and no maximum is to be mended.
///
/// # Errors
///
/// As of [`ReportDescriptor::try_from_with`](crate::ReportDescriptor::try_from_with): the first
/// fault that stays, at its offset in the bytes that were given.
pub fn repair(bytes: &[u8], options: RepairOptions) -> Result<Repaired, ParserError> {
    let mends = c::Mends {
        cut_short: options.leave_out_cut_short,
        unsigned_maxima: options.unsigned_maxima,
    };
    let mut parse: c::Options = options.parse.into();
    if parse.usages == UsagesBy::Linux {
        parse.usages = UsagesBy::Hosts;
    }
    Ok(Repaired {
        bytes: c::repair(bytes, parse, mends)?,
        changes: c::changes(bytes, parse, mends)?,
    })
}
