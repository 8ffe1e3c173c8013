//! `include/hidreport.h` in Rust: its structures here, its functions in `functions`.
mod functions;

pub use functions::*;

use crate::c::numbers::{Push, UsagesBy};

#[repr(C)]
#[derive(Clone, Copy, Debug, PartialEq)]
pub struct Answer {
    pub count: usize,
    pub offset: usize,
    pub status: u32,
}

#[repr(C)]
#[derive(Clone, Copy, Debug, Default, PartialEq)]
pub struct Usages {
    pub count: usize,
    pub first: u32,
    pub last: u32,
    pub is_range: bool,
}

#[repr(C)]
#[derive(Clone, Copy, Debug, Default, PartialEq)]
pub struct Measures {
    pub logical_minimum: i32,
    pub logical_maximum: i32,
    pub physical_minimum: i32,
    pub physical_maximum: i32,
    pub unit: u32,
    pub unit_exponent: i32,
    pub has_physical_minimum: bool,
    pub has_physical_maximum: bool,
    pub has_unit: bool,
    pub has_unit_exponent: bool,
}

#[repr(C)]
#[derive(Clone, Copy, Debug, Default, PartialEq)]
pub struct Collections {
    pub count: usize,
    pub innermost: u32,
}

#[repr(C)]
#[derive(Clone, Copy, Debug, Default, PartialEq)]
pub struct Flags {
    pub is_relative: bool,
    pub wraps: bool,
    pub is_nonlinear: bool,
    pub has_no_preferred_state: bool,
    pub has_null_state: bool,
    pub is_buffered_bytes: bool,
    pub is_volatile: bool,
}

#[repr(C)]
#[derive(Clone, Copy, Debug, Default, PartialEq)]
pub struct Field {
    pub number: u32,
    pub kind: u32,
    pub first_bit: usize,
    pub end_bit: usize,
    pub value_count: usize,
    pub usages: Usages,
    pub measures: Measures,
    pub collections: Collections,
    pub flags: Flags,
    pub has_report_id: bool,
    pub report_id: u8,
}

#[repr(C)]
#[derive(Clone, Copy, Debug, Default, PartialEq)]
pub struct Group {
    pub kind: u32,
    pub first_bit: usize,
    pub element_width: usize,
    pub element_count: usize,
    pub field_count: usize,
    pub usage: u32,
    pub measures: Measures,
    pub collections: Collections,
    pub flags: Flags,
    pub has_report_id: bool,
    pub report_id: u8,
}

#[repr(C)]
#[derive(Clone, Copy, Debug, Default, PartialEq)]
pub struct Run {
    pub first_bit: usize,
    pub element_width: usize,
    pub value_count: usize,
    pub is_signed: bool,
    pub has_report_id: bool,
    pub report_id: u8,
}

#[repr(C)]
#[derive(Clone, Copy, Debug, Default, PartialEq)]
pub struct Report {
    pub size_in_bits: usize,
    pub size_in_bytes: usize,
    pub field_count: usize,
    pub has_id: bool,
    pub id: u8,
}

#[repr(C)]
#[derive(Clone, Copy, Debug, Default, PartialEq)]
pub struct Collection {
    pub number: u32,
    pub kind: u32,
    pub usage_count: usize,
    pub usage: u32,
}

#[repr(C)]
#[derive(Clone, Copy, Debug, PartialEq)]
pub struct Value {
    pub number: i64,
    pub status: u32,
}

#[repr(C)]
#[derive(Clone, Copy, Debug, Default, PartialEq)]
pub struct Item {
    pub offset: usize,
    pub size: usize,
}

#[repr(C)]
#[derive(Clone, Copy, Debug, Default, PartialEq)]
pub struct Change {
    pub offset: usize,
    pub stood: usize,
    pub stands: usize,
    pub reason: u32,
}

#[repr(C)]
#[derive(Clone, Copy, Debug, PartialEq)]
pub struct Usage {
    pub usage: u32,
    pub is_meant: bool,
}

#[repr(C)]
#[derive(Clone, Copy, Debug, PartialEq)]
pub struct Page {
    pub page: u16,
    pub is_there: bool,
}

#[repr(C)]
#[derive(Clone, Copy, Debug, PartialEq)]
pub struct Choice {
    pub value: i64,
    pub is_there: bool,
}

#[repr(C)]
#[derive(Clone, Copy, Debug, PartialEq)]
pub struct MaybeFraction {
    pub numerator: i64,
    pub denominator: i64,
    pub is_there: bool,
}

#[repr(C)]
#[derive(Clone, Copy, Debug, PartialEq)]
pub struct Likeness {
    pub offset: usize,
    pub status: u32,
    pub is_of_other: bool,
    pub is_alike: bool,
}

/// How a descriptor is read.
#[repr(C)]
#[derive(Clone, Copy, Debug, PartialEq)]
pub struct Options {
    /// The most that may be listed; `NO_LIMIT` is none.
    pub limit: usize,
    /// What a Push keeps.
    pub push: Push,
    /// By which rule an item finds its usages.
    pub usages: UsagesBy,
}
