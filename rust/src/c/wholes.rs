//! Groups of fields, and all usages and all values at once.
use crate::c::numbers::{Direction, Status};
use crate::c::sys::{self, Collection, Field, Group, Options, Run};
use crate::c::{listed, listed_in, Refusal, FEW};

// SAFETY of all calls below: as of those in lib.rs.

/// The groups of the fields that a descriptor announces in a direction.
pub fn groups(
    descriptor: &[u8],
    options: Options,
    direction: Direction,
) -> Result<Vec<Group>, Refusal> {
    let empty = Group::default();
    listed_in(descriptor, options, FEW, empty, |bytes, length, list, room| unsafe {
        sys::hidreport_groups(bytes, length, options, direction.into(), list, room)
    })
}

/// The usage at place `index` of group `group` of these, 0 where it has none; none where there is no
/// such group.
pub fn group_usage(
    descriptor: &[u8],
    options: Options,
    direction: Direction,
    group: usize,
    index: usize,
) -> Result<Option<u32>, Refusal> {
    let way = direction.into();
    listed_in(descriptor, options, FEW, 0, |bytes, length, list, room| unsafe {
        sys::hidreport_group_usage(bytes, length, options, way, group, index, list, room)
    })
    .map(|usages| usages.first().copied())
}

/// Field `index` of group `group` of these, as `describe` lists it.
pub fn group_field(
    descriptor: &[u8],
    options: Options,
    direction: Direction,
    group: usize,
    index: usize,
) -> Result<Option<Field>, Refusal> {
    let way = direction.into();
    listed_in(descriptor, options, 1, Field::default(), |bytes, length, list, room| unsafe {
        sys::hidreport_group_field(bytes, length, options, way, group, index, list, room)
    })
    .map(|fields| fields.first().copied())
}

/// The usages of all fields that `describe` lists, those of each field behind those of the field
/// before.
pub fn describe_usages(
    descriptor: &[u8],
    options: Options,
    direction: Direction,
) -> Result<Vec<u32>, Refusal> {
    describe_usages_with_room(descriptor, options, direction, FEW)
}

/// What `describe_usages` answers, asked for once where so much room is enough.
pub(crate) fn describe_usages_with_room(
    descriptor: &[u8],
    options: Options,
    direction: Direction,
    room: usize,
) -> Result<Vec<u32>, Refusal> {
    listed_in(descriptor, options, room, 0, |bytes, length, list, room| unsafe {
        sys::hidreport_describe_usages(bytes, length, options, direction.into(), list, room)
    })
}

/// The collections of all fields that `describe` lists, those of each field behind those of the field
/// before.
pub fn describe_collections(
    descriptor: &[u8],
    options: Options,
    direction: Direction,
) -> Result<Vec<Collection>, Refusal> {
    describe_collections_with_room(descriptor, options, direction, FEW)
}

/// What `describe_collections` answers, asked for once where so much room is enough.
pub(crate) fn describe_collections_with_room(
    descriptor: &[u8],
    options: Options,
    direction: Direction,
    room: usize,
) -> Result<Vec<Collection>, Refusal> {
    let empty = Collection::default();
    listed_in(descriptor, options, room, empty, |bytes, length, list, room| unsafe {
        sys::hidreport_describe_collections(bytes, length, options, direction.into(), list, room)
    })
}

/// The usages of all these collections, those of each behind those of the one before.
pub fn describe_collection_usages(
    descriptor: &[u8],
    options: Options,
    direction: Direction,
) -> Result<Vec<u32>, Refusal> {
    describe_collection_usages_with_room(descriptor, options, direction, FEW)
}

/// What `describe_collection_usages` answers, asked for once where so much room is enough.
pub(crate) fn describe_collection_usages_with_room(
    descriptor: &[u8],
    options: Options,
    direction: Direction,
    room: usize,
) -> Result<Vec<u32>, Refusal> {
    let way = direction.into();
    listed_in(descriptor, options, room, 0, |bytes, length, list, room| unsafe {
        sys::hidreport_describe_collection_usages(bytes, length, options, way, list, room)
    })
}

/// The same of the fields that `find` finds.
pub fn find_usages(
    descriptor: &[u8],
    options: Options,
    direction: Direction,
    report: &[u8],
) -> Result<Vec<u32>, Refusal> {
    let (way, first, size) = (direction.into(), report.as_ptr(), report.len());
    listed_in(descriptor, options, FEW, 0, |bytes, length, list, room| unsafe {
        sys::hidreport_find_usages(bytes, length, options, way, first, size, list, room)
    })
}

/// All values of these fields in a report, those of each field behind those of the field before.
pub fn read(fields: &[Field], report: &[u8]) -> Result<Vec<i64>, Status> {
    let (first, count) = (fields.as_ptr(), fields.len());
    listed(count.min(FEW), 0, |values, room| unsafe {
        sys::hidreport_read(first, count, report.as_ptr(), report.len(), values, room)
    })
    .map_err(|unlisted| unlisted.status)
}

/// The values of these fields that the bytes of a report have, up to the first that they don't have.
pub fn read_available(fields: &[Field], report: &[u8]) -> Result<Vec<i64>, Status> {
    let (first, count) = (fields.as_ptr(), fields.len());
    listed(count.min(FEW), 0, |values, room| unsafe {
        sys::hidreport_read_available(first, count, report.as_ptr(), report.len(), values, room)
    })
    .map_err(|unlisted| unlisted.status)
}

/// Writes all values of these fields, in order, into a report. Where one is refused the report is as
/// it was.
pub fn write(fields: &[Field], report: &mut [u8], values: &[i64]) -> Result<(), Status> {
    let (first, count) = (fields.as_ptr(), fields.len());
    let (bytes, length) = (report.as_mut_ptr(), report.len());
    let (numbers, room) = (values.as_ptr(), values.len());
    Status::of_answer(unsafe { sys::hidreport_write(first, count, bytes, length, numbers, room) })
}

/// What the values of these fields are read and written by, of many reports.
pub fn prepare(fields: &[Field]) -> Result<Vec<Run>, Status> {
    let (first, count) = (fields.as_ptr(), fields.len());
    listed(count, Run::default(), |runs, room| unsafe {
        sys::hidreport_prepare(first, count, runs, room)
    })
    .map_err(|unlisted| unlisted.status)
}

/// What `read` answers by the fields that these runs were prepared of, sooner.
pub fn read_prepared(runs: &[Run], report: &[u8]) -> Result<Vec<i64>, Status> {
    let (first, count) = (runs.as_ptr(), runs.len());
    listed(FEW, 0, |values, room| unsafe {
        sys::hidreport_read_prepared(first, count, report.as_ptr(), report.len(), values, room)
    })
    .map_err(|unlisted| unlisted.status)
}

/// What `write` does by the fields that these runs were prepared of, sooner.
pub fn write_prepared(runs: &[Run], report: &mut [u8], values: &[i64]) -> Result<(), Status> {
    let (first, count) = (runs.as_ptr(), runs.len());
    let (bytes, length) = (report.as_mut_ptr(), report.len());
    let (numbers, room) = (values.as_ptr(), values.len());
    Status::of_answer(unsafe {
        sys::hidreport_write_prepared(first, count, bytes, length, numbers, room)
    })
}
