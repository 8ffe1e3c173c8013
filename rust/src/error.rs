//! Why there is no answer.
use crate::c::{Refusal, Status};
use std::error::Error;
use std::fmt;

/// Why a descriptor isn't read, or a value isn't taken from a report.
#[derive(Clone, Debug, PartialEq, Eq)]
pub enum ParserError {
    /// An item can't be read, or means nothing where it stands.
    InvalidData {
        /// How many bytes stand before the item.
        offset: usize,
        /// What is wrong with it.
        message: String,
    },
    /// A report's end or a count passes what can be counted, or bits lie outside of a report's
    /// bytes.
    OutOfBounds,
    /// The report's first byte isn't the id of the field's report.
    MismatchingReportId,
    /// Memory was refused.
    OutOfMemory,
    /// The descriptor lists more than the limit of its options, or has more bytes than that.
    BudgetExceeded {
        /// How many bytes stand before the item that passes the limit.
        offset: usize,
    },
}

impl fmt::Display for ParserError {
    fn fmt(&self, f: &mut fmt::Formatter<'_>) -> fmt::Result {
        match self {
            ParserError::InvalidData { offset, message } => {
                write!(f, "invalid data at offset {offset}: {message}")
            }
            ParserError::OutOfBounds => f.write_str("out of bounds"),
            ParserError::MismatchingReportId => f.write_str("the bytes are of another report"),
            ParserError::OutOfMemory => f.write_str("out of memory"),
            ParserError::BudgetExceeded { offset } => {
                write!(f, "budget exceeded at offset {offset}")
            }
        }
    }
}

impl Error for ParserError {}

impl From<Refusal> for ParserError {
    fn from(refusal: Refusal) -> ParserError {
        let Refusal { status, offset, message } = refusal;
        match status {
            Status::BudgetExceeded => ParserError::BudgetExceeded { offset },
            Status::InvalidData => ParserError::InvalidData { offset, message },
            other => ParserError::from(other),
        }
    }
}

impl From<Status> for ParserError {
    fn from(status: Status) -> ParserError {
        match status {
            Status::OutOfBounds => ParserError::OutOfBounds,
            Status::MismatchingReportId => ParserError::MismatchingReportId,
            Status::OutOfMemory => ParserError::OutOfMemory,
            // Values are refused for none of the others, and options have names here.
            other => unreachable!("{other}"),
        }
    }
}

/// Why a value isn't written into a report, whose bytes are as they were.
#[derive(Clone, Copy, Debug, PartialEq, Eq)]
pub enum InsertError {
    /// The field has no such value, or its bits don't lie in the report's bytes behind its id.
    OutOfBounds,
    /// The report's first byte isn't the id of the field's report.
    MismatchingReportId,
    /// The field's bits don't hold the value.
    DoesNotFit,
    /// There are more or fewer values than the field has.
    WrongCount,
}

impl fmt::Display for InsertError {
    fn fmt(&self, f: &mut fmt::Formatter<'_>) -> fmt::Result {
        f.write_str(match self {
            InsertError::OutOfBounds => "out of bounds",
            InsertError::MismatchingReportId => "the bytes are of another report",
            InsertError::DoesNotFit => "the field's bits don't hold the value",
            InsertError::WrongCount => "the number of values isn't that of the field's values",
        })
    }
}

impl Error for InsertError {}

impl From<Status> for InsertError {
    fn from(status: Status) -> InsertError {
        match status {
            Status::OutOfBounds => InsertError::OutOfBounds,
            Status::MismatchingReportId => InsertError::MismatchingReportId,
            Status::DoesNotFit => InsertError::DoesNotFit,
            Status::WrongCount => InsertError::WrongCount,
            // Values are refused for none of the others.
            other => unreachable!("{other}"),
        }
    }
}
