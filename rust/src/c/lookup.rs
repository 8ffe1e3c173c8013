//! A report by its id, and a field by its number or by a usage.
use crate::c::numbers::Direction;
use crate::c::sys::{self, Field, Options, Report};
use crate::c::{listed_in, Refusal};

// SAFETY of all calls below: as of those in lib.rs.

/// The report of a direction with this id, or without one.
pub fn report_with(
    descriptor: &[u8],
    options: Options,
    direction: Direction,
    id: Option<u8>,
) -> Result<Option<Report>, Refusal> {
    let (has_id, id, way) = (id.is_some(), id.unwrap_or(0), direction.into());
    listed_in(descriptor, options, 1, Report::default(), |bytes, length, list, room| unsafe {
        sys::hidreport_report_with(bytes, length, options, way, has_id, id, list, room)
    })
    .map(|reports| reports.first().copied())
}

/// The field with this number, in whichever direction.
pub fn field_numbered(
    descriptor: &[u8],
    options: Options,
    number: u32,
) -> Result<Option<Field>, Refusal> {
    listed_in(descriptor, options, 1, Field::default(), |bytes, length, list, room| unsafe {
        sys::hidreport_field_numbered(bytes, length, options, number, list, room)
    })
    .map(|fields| fields.first().copied())
}

/// The first field with this usage of the report of a direction with this id, or without one.
pub fn field_for(
    descriptor: &[u8],
    options: Options,
    direction: Direction,
    id: Option<u8>,
    usage: u32,
) -> Result<Option<Field>, Refusal> {
    let (has_id, id, way) = (id.is_some(), id.unwrap_or(0), direction.into());
    listed_in(descriptor, options, 1, Field::default(), |bytes, length, list, room| unsafe {
        sys::hidreport_field_for(bytes, length, options, way, has_id, id, usage, list, room)
    })
    .map(|fields| fields.first().copied())
}
