//! Descriptors that hosts accept, made such as are read.
use crate::c::numbers::{Mends, Status};
use crate::c::sys::{self, Change, Options};
use crate::c::{listed, text_of, Refusal, Unlisted, FEW};

// SAFETY of all calls below: as of those in lib.rs.

fn refusal(descriptor: &[u8], options: Options, mends: Mends, unlisted: Unlisted) -> Refusal {
    Refusal {
        status: unlisted.status,
        offset: unlisted.offset,
        message: repair_message(descriptor, options, mends).unwrap_or_default(),
    }
}

/// A descriptor that is read by these options, made of one that hosts accept.
pub fn repair(descriptor: &[u8], options: Options, mends: Mends) -> Result<Vec<u8>, Refusal> {
    listed(descriptor.len(), 0, |bytes, room| unsafe {
        sys::hidreport_repair(
            descriptor.as_ptr(),
            descriptor.len(),
            options,
            mends.into(),
            bytes,
            room,
        )
    })
    .map_err(|unlisted| refusal(descriptor, options, mends, unlisted))
}

/// What `repair` changes, in the order of the offsets; none where the descriptor stays as it is.
pub fn changes(descriptor: &[u8], options: Options, mends: Mends) -> Result<Vec<Change>, Refusal> {
    listed(FEW, Change::default(), |changes, room| unsafe {
        sys::hidreport_changes(
            descriptor.as_ptr(),
            descriptor.len(),
            options,
            mends.into(),
            changes,
            room,
        )
    })
    .map_err(|unlisted| refusal(descriptor, options, mends, unlisted))
}

/// What these two refuse a descriptor for, as `message` says of the others.
pub fn repair_message(descriptor: &[u8], options: Options, mends: Mends) -> Result<String, Status> {
    text_of(|text, room| unsafe {
        let (bytes, length) = (descriptor.as_ptr(), descriptor.len());
        sys::hidreport_repair_message(bytes, length, options, mends.into(), text, room)
    })
}

#[cfg(test)]
mod tests {
    use super::*;
    use crate::c::numbers::Reason;

    #[test]
    fn what_is_left_out_is_named() {
        let options = Options::default();
        let mends = Mends { cut_short: true, ..Mends::default() };
        let cut = b"\xa1\x00\xc0\x05";
        assert_eq!(repair(cut, options, mends), Ok(b"\xa1\x00\xc0".to_vec()));
        let left_out = Change { offset: 3, stood: 1, stands: 0, reason: Reason::CutShort.into() };
        assert_eq!(changes(cut, options, mends), Ok(vec![left_out]));
        let refusal = repair(cut, options, Mends::default()).unwrap_err();
        assert_eq!((refusal.status, refusal.offset), (Status::InvalidData, 3));
        assert_eq!(refusal.message, "Insufficient data");
    }
}
