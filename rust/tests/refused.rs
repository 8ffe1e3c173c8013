//! Refused memory: of each call that lists, every piece that grows with what is listed is refused by
//! itself, which the call has to answer with want of memory, and no run may end. (What the library
//! below takes comes from C's heap; c/hostile_memory.h refuses that.)
use hidreport::c::{self, Direction, Mends, Options, Refusal, Status};
use hidreport::{repair, Field, ParserError, RepairOptions, Report, ReportDescriptor};
use std::alloc::{GlobalAlloc, Layout, System};
use std::cell::Cell;

/// Pieces up to this size are always given: no list of these descriptors is as short.
const SMALL: usize = 64;

thread_local! {
    /// How many larger pieces are given before one is refused, if one is to be.
    static LEFT: Cell<Option<usize>> = const { Cell::new(None) };
}

struct Refusing;

#[global_allocator]
static REFUSING: Refusing = Refusing;

fn is_refused(size: usize) -> bool {
    let told = LEFT.try_with(|left| match left.get() {
        Some(0) if size > SMALL => {
            left.set(None);
            true
        }
        Some(more) if size > SMALL => {
            left.set(Some(more - 1));
            false
        }
        _ => false,
    });
    told.unwrap_or(false)
}

// SAFETY: what is given is the system's; what is refused is null.
unsafe impl GlobalAlloc for Refusing {
    unsafe fn alloc(&self, layout: Layout) -> *mut u8 {
        match is_refused(layout.size()) {
            true => std::ptr::null_mut(),
            false => System.alloc(layout),
        }
    }

    unsafe fn dealloc(&self, start: *mut u8, layout: Layout) {
        System.dealloc(start, layout)
    }

    unsafe fn realloc(&self, start: *mut u8, layout: Layout, size: usize) -> *mut u8 {
        match is_refused(size) {
            true => std::ptr::null_mut(),
            false => System.realloc(start, layout, size),
        }
    }
}

/// Twenty usages of a collection; forty buttons; twenty keys of twenty usages that count up, and
/// twenty of twenty that don't; twenty lamps.
fn descriptor() -> Vec<u8> {
    let mut bytes = vec![0x05, 1, 0x19, 1, 0x29, 20, 0xa1, 1];
    bytes.extend([0x05, 9, 0x19, 1, 0x29, 40, 0x15, 0, 0x25, 1, 0x75, 1, 0x95, 40, 0x81, 2]);
    bytes.extend([0x05, 7, 0x19, 4, 0x29, 23, 0x15, 1, 0x25, 20, 0x75, 8, 0x95, 20, 0x81, 0]);
    bytes.extend((4..24).flat_map(|key| [0x09, 2 * key]));
    bytes.extend([0x81, 0]);
    bytes.extend([0x05, 8, 0x19, 1, 0x29, 20, 0x75, 1, 0x95, 20, 0x91, 2, 0xc0]);
    bytes
}

/// Why a call has no answer: want of memory, or something else.
trait Reason {
    fn is_want(&self) -> bool;
}

impl Reason for ParserError {
    fn is_want(&self) -> bool {
        matches!(self, ParserError::OutOfMemory)
    }
}

impl Reason for Status {
    fn is_want(&self) -> bool {
        *self == Status::OutOfMemory
    }
}

impl Reason for Refusal {
    fn is_want(&self) -> bool {
        self.status == Status::OutOfMemory
    }
}

/// Each piece of a call is refused by itself, until the call takes no more than are given.
fn refuse<T, E: Reason>(name: &str, call: impl Fn() -> Result<T, E>) {
    for given in 0.. {
        LEFT.with(|left| left.set(Some(given)));
        let answer = call();
        let was_refused = LEFT.with(|left| left.replace(None)).is_none();
        match answer {
            Ok(_) if was_refused => panic!("{name}: an answer without piece {given}"),
            Err(reason) if !was_refused || !reason.is_want() => panic!("{name}: another refusal"),
            Err(_) => {}
            Ok(_) => {
                assert!(given > 0, "{name} takes no memory");
                return;
            }
        }
    }
}

#[test]
fn each_piece_of_a_parse_may_be_refused() {
    let bytes = descriptor();
    refuse("try_from", || ReportDescriptor::try_from(bytes.as_slice()));
    refuse("repair", || repair(&bytes, RepairOptions::default()));
}

#[test]
fn each_piece_of_a_reports_values_may_be_refused() {
    let descriptor = ReportDescriptor::try_from(descriptor().as_slice()).unwrap();
    let report = &descriptor.input_reports()[0];
    let bytes = vec![1; report.size_in_bytes()];
    let mut arrays = 0;
    for field in report.fields() {
        if let Field::Array(field) = field {
            refuse("extract", || field.extract(&bytes));
            arrays += 1;
        }
    }
    assert_eq!(arrays, 2);
    let long = ReportDescriptor::try_from(&[0x75, 8, 0x95, 100, 0x81, 1][..]).unwrap();
    refuse("blank", || long.input_reports()[0].blank());
}

#[test]
fn each_piece_of_a_list_may_be_refused() {
    let bytes = descriptor();
    let (options, way) = (Options::default(), Direction::Input);
    let report = vec![1; 45];
    let fields = c::describe(&bytes, options, way).unwrap();
    let runs = c::prepare(&fields).unwrap();
    let cut = [bytes.as_slice(), &[0x75]].concat();
    let mends = Mends { cut_short: true, unsigned_maxima: false };
    refuse("reports", || c::reports(&bytes, options, way));
    refuse("describe", || c::describe(&bytes, options, way));
    refuse("find", || c::find(&bytes, options, way, &report));
    refuse("groups", || c::groups(&bytes, options, way));
    refuse("group_usage", || c::group_usage(&bytes, options, way, 0, 1));
    refuse("group_field", || c::group_field(&bytes, options, way, 0, 1));
    refuse("field_numbered", || c::field_numbered(&bytes, options, 1));
    refuse("field_for", || c::field_for(&bytes, options, way, None, 0x0009_0001));
    refuse("usages", || c::usages(&bytes, options, 40));
    refuse("describe_usages", || c::describe_usages(&bytes, options, way));
    refuse("find_usages", || c::find_usages(&bytes, options, way, &report));
    refuse("collections", || c::collections(&bytes, options, 40));
    refuse("collection_usages", || c::collection_usages(&bytes, options, 40, 0));
    refuse("describe_collections", || c::describe_collections(&bytes, options, way));
    refuse("describe_collection_usages", || c::describe_collection_usages(&bytes, options, way));
    refuse("items", || c::items(&bytes));
    refuse("front_items", || c::front_items(&bytes));
    refuse("rebuild", || c::rebuild(&bytes));
    refuse("values", || c::values(&fields[40], &report));
    refuse("read", || c::read(&fields, &report));
    refuse("read_available", || c::read_available(&fields, &report));
    refuse("prepare", || c::prepare(&fields));
    refuse("read_prepared", || c::read_prepared(&runs, &report));
    refuse("repair", || c::repair(&cut, options, mends));
    refuse("changes", || c::changes(&cut, options, mends));
}
