//! Fields with one value.
use crate::c::{self, Fraction};
use crate::collection::Collection;
use crate::error::{InsertError, ParserError};
use crate::field::FieldId;
use crate::field_attributes::{field_attributes, Attributes, FieldAttributes};
use crate::types::{
    LogicalMaximum, LogicalMinimum, PhysicalMaximum, PhysicalMinimum, ReportId, Unit, UnitExponent,
};
use crate::usage::Usage;
use crate::value::FieldValue;
use std::ops::Range;

/// A field with one value, and a usage of its own (Section 6.2.2.5).
#[derive(Clone, Debug, PartialEq)]
pub struct VariableField {
    pub(crate) id: FieldId,
    pub(crate) report_id: Option<ReportId>,
    /// The field's bits in its report, those of the report's id counted.
    pub bits: Range<usize>,
    /// What the control is for.
    pub usage: Usage,
    /// The least value; values are signed where it is below 0.
    pub logical_minimum: LogicalMinimum,
    /// The greatest value.
    pub logical_maximum: LogicalMaximum,
    /// What the least value stands for, where the descriptor says it.
    pub physical_minimum: Option<PhysicalMinimum>,
    /// What the greatest value stands for, where the descriptor says it.
    pub physical_maximum: Option<PhysicalMaximum>,
    /// The unit of the physical bounds.
    pub unit: Option<Unit>,
    /// The power of ten of the unit.
    pub unit_exponent: Option<UnitExponent>,
    /// The collections that the field lies in, outermost first.
    pub collections: Vec<Collection>,
    pub(crate) attributes: Attributes,
}

impl VariableField {
    /// Whether values are signed: the logical minimum is below 0.
    pub fn is_signed(&self) -> bool {
        self.logical_minimum.0 < 0
    }

    /// The field's value in a report with these bytes (Section 5.8).
    ///
    /// # Errors
    ///
    /// - [`ParserError::MismatchingReportId`]: the first byte isn't the id of the field's report.
    /// - [`ParserError::OutOfBounds`]: the bits don't lie in the bytes, or are none or more than
    ///   32.
    pub fn extract(&self, bytes: &[u8]) -> Result<FieldValue, ParserError> {
        let number = c::value(&self.of_values(), bytes, 0)?;
        Ok(FieldValue { number, is_signed: self.is_signed() })
    }

    /// Writes a value into a report with these bytes: the field's bits become those of the number,
    /// and no other bit changes. What the field's bits hold is written, whatever the logical bounds
    /// are.
    ///
    /// # Errors
    ///
    /// Where it is refused, the bytes are as they were.
    ///
    /// - [`InsertError::MismatchingReportId`]: the first byte isn't the id of the field's report.
    /// - [`InsertError::OutOfBounds`]: the bits don't lie in the bytes, behind the id where there
    ///   is one, or are none or more than 32.
    /// - [`InsertError::DoesNotFit`]: the bits don't hold the value.
    pub fn insert(&self, bytes: &mut [u8], value: i64) -> Result<(), InsertError> {
        Ok(c::insert(&self.of_values(), bytes, 0, value)?)
    }

    /// What a value stands for, in the field's unit times ten to its exponent (Section 6.2.2.7):
    /// the logical bounds stand for the physical ones, and a value lies on the line through both.
    /// `None` where the logical minimum isn't below the maximum, or 64 bits don't hold the
    /// numerator.
    pub fn physical_value(&self, value: i64) -> Option<Fraction> {
        c::physical(&self.as_c(), value)
    }

    /// A value between -1, the logical minimum, and 1, the logical maximum. `None` as of
    /// [`physical_value`](VariableField::physical_value).
    pub fn normalized(&self, value: i64) -> Option<Fraction> {
        c::normalized(&self.as_c(), value)
    }

    fn of_values(&self) -> c::Field {
        c::Field::of_values(&self.bits, 1, self.logical_minimum, self.report_id)
    }

    fn as_c(&self) -> c::Field {
        let mut field = c::Field {
            number: self.id.0,
            kind: c::FieldKind::Variable.into(),
            first_bit: self.bits.start,
            end_bit: self.bits.end,
            value_count: 1,
            flags: self.attributes.flags,
            ..c::Field::default()
        };
        field.set_report_id(self.report_id);
        field.measures = c::Measures::of(
            (self.logical_minimum, self.logical_maximum),
            (self.physical_minimum, self.physical_maximum),
            (self.unit, self.unit_exponent),
        );
        field
    }
}

field_attributes!(VariableField);
