//! Reports written.
use crate::c::numbers::Status;
use crate::c::sys::{self, Field, Report};
use crate::c::{listed, FEW};

// SAFETY of all calls below: as of those in lib.rs.

/// The bytes of a report without values: its id, where it has one, and zeros.
pub fn blank(report: &Report) -> Result<Vec<u8>, Status> {
    listed(report.size_in_bytes.min(FEW), 0, |bytes, room| unsafe {
        sys::hidreport_blank(report, bytes, room)
    })
    .map_err(|unlisted| unlisted.status)
}

/// Writes value `index` of a field, counted from 0, into a report: its bits become those of the
/// number. Where it is refused the report is as it was.
pub fn insert(field: &Field, report: &mut [u8], index: usize, value: i64) -> Result<(), Status> {
    let (bytes, length) = (report.as_mut_ptr(), report.len());
    Status::of_answer(unsafe { sys::hidreport_insert(field, bytes, length, index, value) })
}

/// Writes all values of a field, in order. Where one is refused the report is as it was.
pub fn insert_all(field: &Field, report: &mut [u8], values: &[i64]) -> Result<(), Status> {
    let (bytes, length) = (report.as_mut_ptr(), report.len());
    let (first, count) = (values.as_ptr(), values.len());
    Status::of_answer(unsafe { sys::hidreport_insert_all(field, bytes, length, first, count) })
}

fn chosen(choice: sys::Choice) -> Option<i64> {
    choice.is_there.then_some(choice.value)
}

/// The value of an array that stands for a usage, of the usages that `usages` lists for the field.
pub fn value_of(field: &Field, usage: u32, usages: &[u32]) -> Option<i64> {
    let (first, count) = (usages.as_ptr(), usages.len());
    chosen(unsafe { sys::hidreport_value_of(field, usage, first, count) })
}

/// A value of an array that stands for no usage, to be written where no key is held.
pub fn null_value(field: &Field) -> Option<i64> {
    chosen(unsafe { sys::hidreport_null_value(field) })
}

#[cfg(test)]
mod tests {
    use super::*;
    use crate::c::{describe, Direction, Options};

    /// Two values that choose among three keys, in an output report with an id.
    const KEYS: &[u8] = b"\x85\x05\x05\x07\x19\x04\x29\x06\x15\x01\x25\x03\x75\x08\x95\x02\x91\x00";

    #[test]
    fn what_is_written_is_read() {
        let options = Options::default();
        let fields = describe(KEYS, options, Direction::Output).unwrap();
        let report =
            crate::c::report_with(KEYS, options, Direction::Output, Some(5)).unwrap().unwrap();
        let mut bytes = blank(&report).unwrap();
        assert_eq!(bytes, [5, 0, 0]);
        let usages = crate::c::usages(KEYS, options, fields[0].number).unwrap();
        let value = value_of(&fields[0], 0x0007_0006, &usages).unwrap();
        let none = null_value(&fields[0]).unwrap();
        assert_eq!(insert_all(&fields[0], &mut bytes, &[none, value]), Ok(()));
        assert_eq!(bytes, [5, 0, 3]);
        assert_eq!(crate::c::values(&fields[0], &bytes), Ok(vec![0, 3]));
        assert_eq!(insert(&fields[0], &mut bytes, 0, 256), Err(Status::DoesNotFit));
        assert_eq!(insert_all(&fields[0], &mut bytes, &[1]), Err(Status::WrongCount));
        assert_eq!(bytes, [5, 0, 3]);
    }

    /// Sixteen bytes that announce an array of 2^31 bits, 2^32 - 1 times: nobody has such memory.
    #[test]
    fn a_report_without_end_is_refused() {
        let great = b"\x05\x01\x09\x30\x77\x00\x00\x00\x80\x97\xff\xff\xff\xff\x81\x00";
        let options = Options::default();
        let report =
            crate::c::report_with(great, options, Direction::Input, None).unwrap().unwrap();
        assert_eq!(blank(&report), Err(Status::OutOfMemory));
    }
}
