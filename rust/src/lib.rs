//! HID report descriptors read, and values taken from reports and written into them (USB HID 1.11),
//! by code that is proved: each answer is the proved library's, and this package hands it on.
//!
//! A device announces its reports by a *report descriptor*. [`ReportDescriptor`] is one that was
//! read: its reports by direction, each with its [`Field`]s, which know their bits, usages and
//! bounds, and take their values from a report's bytes or write them.
//!
//! ```
//! use hidreport::{Field, Report, ReportDescriptor};
//!
//! // A mouse: three buttons, five bits of padding, X and Y.
//! let descriptor: &[u8] = &[
//!     0x05, 0x01, 0x09, 0x02, 0xa1, 0x01, 0x05, 0x09, 0x19, 0x01, 0x29, 0x03, 0x15, 0x00, 0x25,
//!     0x01, 0x75, 0x01, 0x95, 0x03, 0x81, 0x02, 0x75, 0x05, 0x95, 0x01, 0x81, 0x01, 0x05, 0x01,
//!     0x09, 0x30, 0x09, 0x31, 0x15, 0x81, 0x25, 0x7f, 0x75, 0x08, 0x95, 0x02, 0x81, 0x06, 0xc0,
//! ];
//! let mouse = ReportDescriptor::try_from(descriptor)?;
//! let bytes = [0b001, 5, 0xfb];
//! let report = mouse.find_input_report(&bytes).expect("it has an input report");
//! let mut values = Vec::new();
//! for field in report.fields() {
//!     if let Field::Variable(field) = field {
//!         values.push((u32::from(field.usage), i32::from(field.extract(&bytes)?)));
//!     }
//! }
//! assert_eq!(values[0], (0x0009_0001, 1));
//! assert_eq!(values[3..], [(0x0001_0030, 5), (0x0001_0031, -5)]);
//! # Ok::<(), hidreport::ParserError>(())
//! ```
//!
//! A few bytes can announce 2³² fields. For bytes that nobody vouches for there is a limit:
//!
//! ```
//! use hidreport::{ParseOptions, ParserError, ReportDescriptor};
//!
//! let descriptor = [0x05, 1, 0x09, 0x30, 0x75, 8, 0x97, 0xff, 0xff, 0xff, 0xff, 0x81, 2];
//! let refusal = ReportDescriptor::try_from_with(&descriptor, ParseOptions::bounded());
//! assert_eq!(refusal.unwrap_err(), ParserError::BudgetExceeded { offset: 11 });
//! ```
//!
//! Sections are those of the Device Class Definition for HID 1.11.
#![deny(missing_docs)]
#![deny(unsafe_code)]

mod array_field;
#[allow(missing_docs, unsafe_code)]
pub mod c;
mod collection;
mod constant_field;
mod descriptor;
mod error;
mod field;
mod field_attributes;
mod measures;
mod options;
mod reading;
mod repairing;
mod report;
pub mod types;
mod usage;
mod value;
mod variable_field;

pub use array_field::ArrayField;
pub use c::{Direction, Fraction};
pub use collection::{Collection, CollectionId, CollectionType};
pub use constant_field::ConstantField;
pub use descriptor::ReportDescriptor;
pub use error::{InsertError, ParserError};
pub use field::{Field, FieldId};
pub use field_attributes::FieldAttributes;
pub use options::{ParseOptions, PushKeeps, UsagesBy};
pub use repairing::{repair, Change, Reason, RepairOptions, Repaired};
pub use report::{RDescReport, Report};
pub use types::*;
pub use usage::{Usage, UsageRange};
pub use value::FieldValue;
pub use variable_field::VariableField;

#[cfg(doctest)]
#[doc = include_str!("../README.md")]
struct Readme;
