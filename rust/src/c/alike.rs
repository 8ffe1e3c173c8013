//! Descriptors compared.
use crate::c::numbers::Status;
use crate::c::sys::{self, Options};
use crate::c::{message, Refusal};
use std::error::Error;
use std::fmt;

/// Which of two descriptors isn't read, and why.
#[derive(Clone, Debug, PartialEq, Eq)]
pub enum Unread {
    First(Refusal),
    /// The first is read.
    Other(Refusal),
}

impl fmt::Display for Unread {
    fn fmt(&self, f: &mut fmt::Formatter) -> fmt::Result {
        match self {
            Unread::First(refusal) => write!(f, "the first descriptor: {refusal}"),
            Unread::Other(refusal) => write!(f, "the other descriptor: {refusal}"),
        }
    }
}

impl Error for Unread {}

/// Whether two descriptors, read by these options, announce the same: the same reports in each
/// direction, with fields that are equal in all parts. Their bytes may differ.
pub fn is_alike(descriptor: &[u8], other: &[u8], options: Options) -> Result<bool, Unread> {
    let (first, second) = (descriptor.as_ptr(), other.as_ptr());
    // SAFETY: as of the calls in lib.rs.
    let told =
        unsafe { sys::hidreport_is_alike(first, descriptor.len(), second, other.len(), options) };
    let refused = |bytes, status| Refusal {
        status,
        offset: told.offset,
        message: message(bytes, options).unwrap_or_default(),
    };
    match Status::of_answer(told.status) {
        Ok(()) => Ok(told.is_alike),
        Err(status) if told.is_of_other => Err(Unread::Other(refused(other, status))),
        Err(status) => Err(Unread::First(refused(descriptor, status))),
    }
}
