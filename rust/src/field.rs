//! Fields of a report.
use crate::array_field::ArrayField;
use crate::collection::Collection;
use crate::constant_field::ConstantField;
use crate::error::ParserError;
use crate::reading::with_room;
use crate::types::ReportId;
use crate::usage::Usage;
use crate::value::FieldValue;
use crate::variable_field::VariableField;
use std::ops::Range;

/// The number of a field, counted over the descriptor from 0.
#[derive(Clone, Copy, Debug, PartialEq, Eq, PartialOrd, Ord, Hash)]
pub struct FieldId(pub(crate) u32);

impl From<FieldId> for u32 {
    fn from(id: FieldId) -> u32 {
        id.0
    }
}

impl From<&FieldId> for u32 {
    fn from(id: &FieldId) -> u32 {
        id.0
    }
}

/// A field of a report (Section 6.2.2.5).
#[derive(Clone, Debug, PartialEq)]
pub enum Field {
    /// One value with a usage of its own: an axis, a button.
    Variable(VariableField),
    /// Values that each choose among usages: the keys that are held.
    Array(ArrayField),
    /// Padding.
    Constant(ConstantField),
}

impl Field {
    /// The field's number, which no other of the descriptor has.
    pub fn id(&self) -> FieldId {
        match self {
            Field::Variable(field) => field.id,
            Field::Array(field) => field.id,
            Field::Constant(field) => field.id,
        }
    }

    /// The field's bits in its report, those of the report's id counted.
    pub fn bits(&self) -> &Range<usize> {
        match self {
            Field::Variable(field) => &field.bits,
            Field::Array(field) => &field.bits,
            Field::Constant(field) => &field.bits,
        }
    }

    /// The id of the field's report, where it has one.
    pub fn report_id(&self) -> Option<ReportId> {
        match self {
            Field::Variable(field) => field.report_id,
            Field::Array(field) => field.report_id,
            Field::Constant(field) => field.report_id,
        }
    }

    /// The collections that the field lies in, outermost first; none of padding.
    pub fn collections(&self) -> &[Collection] {
        match self {
            Field::Variable(field) => &field.collections,
            Field::Array(field) => &field.collections,
            Field::Constant(_) => &[],
        }
    }

    /// The field's usages: one of a variable field, none of padding.
    pub fn usages(&self) -> &[Usage] {
        match self {
            Field::Variable(field) => std::slice::from_ref(&field.usage),
            Field::Array(field) => field.usages(),
            Field::Constant(field) => field.usages(),
        }
    }

    /// The field's values in a report with these bytes, in order; none of padding.
    ///
    /// # Errors
    ///
    /// - `ParserError::MismatchingReportId`: the bytes are of another report.
    /// - `ParserError::OutOfBounds`: the bits don't lie in the bytes, or a value has none or more
    ///   than 32.
    pub fn values(&self, bytes: &[u8]) -> Result<Vec<FieldValue>, ParserError> {
        match self {
            Field::Variable(field) => {
                let mut values = with_room(1)?;
                values.push(field.extract(bytes)?);
                Ok(values)
            }
            Field::Array(field) => field.extract(bytes),
            Field::Constant(_) => Ok(Vec::new()),
        }
    }
}
