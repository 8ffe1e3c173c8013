//! Fields whose values choose among usages.
use crate::c;
use crate::collection::Collection;
use crate::error::{InsertError, ParserError};
use crate::field::FieldId;
use crate::field_attributes::{field_attributes, Attributes, FieldAttributes};
use crate::reading::with_room;
use crate::types::{
    LogicalMaximum, LogicalMinimum, PhysicalMaximum, PhysicalMinimum, ReportCount, ReportId, Unit,
    UnitExponent, UsageMaximum, UsageMinimum,
};
use crate::usage::{Usage, UsageRange};
use crate::value::FieldValue;
use std::ops::Range;

/// A field with several values, each of which chooses one of the field's usages, or none (Section
/// 6.2.2.5): the keys of a keyboard that are held.
#[derive(Clone, Debug, PartialEq)]
pub struct ArrayField {
    pub(crate) id: FieldId,
    pub(crate) report_id: Option<ReportId>,
    /// The field's bits in its report, those of the report's id counted.
    pub bits: Range<usize>,
    /// How many values it has.
    pub report_count: ReportCount,
    /// The value that stands for the first usage; values are signed where it is below 0.
    pub logical_minimum: LogicalMinimum,
    /// The greatest value that stands for a usage.
    pub logical_maximum: LogicalMaximum,
    /// What the least value stands for, where the descriptor says it.
    pub physical_minimum: Option<PhysicalMinimum>,
    /// What the greatest value stands for, where the descriptor says it.
    pub physical_maximum: Option<PhysicalMaximum>,
    /// The unit of the physical bounds.
    pub unit: Option<Unit>,
    /// The power of ten of the unit.
    pub unit_exponent: Option<UnitExponent>,
    /// The collections that the field lies in, outermost first.
    pub collections: Vec<Collection>,
    pub(crate) usages: Vec<Usage>,
    pub(crate) numbers: Vec<u32>,
    pub(crate) is_usage_range: bool,
    pub(crate) attributes: Attributes,
}

impl ArrayField {
    /// The usages that values choose among, in order.
    pub fn usages(&self) -> &[Usage] {
        &self.usages
    }

    /// The first and the last usage, where a minimum and a maximum gave them.
    pub fn usage_range(&self) -> Option<UsageRange> {
        let (first, last) = (self.numbers.first()?, self.numbers.last()?);
        self.is_usage_range
            .then_some(UsageRange { minimum: UsageMinimum(*first), maximum: UsageMaximum(*last) })
    }

    /// Whether a minimum and a maximum gave the usages.
    pub fn is_usage_range(&self) -> bool {
        self.is_usage_range
    }

    /// Whether values are signed: the logical minimum is below 0.
    pub fn is_signed(&self) -> bool {
        self.logical_minimum.0 < 0
    }

    /// The usage that a value stands for; `None` outside the logical bounds, as where no key is
    /// held, and where there is no such usage.
    pub fn usage_of(&self, value: FieldValue) -> Option<Usage> {
        c::usage_of(&self.as_c(), value.number, &self.numbers).map(Usage::from)
    }

    /// The value that stands for a usage: the least where the usage is there more than once, `None`
    /// where it isn't there, or only behind the logical maximum.
    pub fn value_of(&self, usage: Usage) -> Option<i64> {
        c::value_of(&self.as_c(), usage.into(), &self.numbers)
    }

    /// A value that stands for no usage, to be written where no key is held; `None` where the
    /// field's bits hold none.
    pub fn null_value(&self) -> Option<i64> {
        c::null_value(&self.as_c())
    }

    /// The field's values in a report with these bytes, in order (Section 5.8).
    ///
    /// # Errors
    ///
    /// - [`ParserError::MismatchingReportId`]: the first byte isn't the id of the field's report.
    /// - [`ParserError::OutOfBounds`]: the bits don't lie in the bytes, or a value has none or more
    ///   than 32.
    pub fn extract(&self, bytes: &[u8]) -> Result<Vec<FieldValue>, ParserError> {
        let is_signed = self.is_signed();
        let numbers = c::values(&self.of_values(), bytes)?;
        let mut values = with_room(numbers.len())?;
        values.extend(numbers.iter().map(|number| FieldValue { number: *number, is_signed }));
        Ok(values)
    }

    /// Value `index` of the field, counted from 0.
    ///
    /// # Errors
    ///
    /// As of [`extract`](ArrayField::extract), of this value alone; and
    /// [`ParserError::OutOfBounds`] where there is no such value.
    pub fn extract_one(&self, bytes: &[u8], index: usize) -> Result<FieldValue, ParserError> {
        let number = c::value(&self.of_values(), bytes, index)?;
        Ok(FieldValue { number, is_signed: self.is_signed() })
    }

    /// Writes all values of the field, in order: its bits become those of the numbers, and no other
    /// bit changes.
    ///
    /// # Errors
    ///
    /// Where one is refused, the bytes are as they were.
    ///
    /// - [`InsertError::MismatchingReportId`]: the first byte isn't the id of the field's report.
    /// - [`InsertError::OutOfBounds`]: the bits don't lie in the bytes, behind the id where there
    ///   is one, or a value has none or more than 32.
    /// - [`InsertError::DoesNotFit`]: a value's bits don't hold it.
    /// - [`InsertError::WrongCount`]: there are more or fewer values than the field has.
    pub fn insert(&self, bytes: &mut [u8], values: &[i64]) -> Result<(), InsertError> {
        Ok(c::insert_all(&self.of_values(), bytes, values)?)
    }

    /// Writes value `index` of the field, counted from 0.
    ///
    /// # Errors
    ///
    /// As of [`insert`](ArrayField::insert), of this value alone; and
    /// [`InsertError::OutOfBounds`] where the field has no such value.
    pub fn insert_one(
        &self,
        bytes: &mut [u8],
        index: usize,
        value: i64,
    ) -> Result<(), InsertError> {
        Ok(c::insert(&self.of_values(), bytes, index, value)?)
    }

    fn of_values(&self) -> c::Field {
        c::Field::of_values(&self.bits, self.report_count.0, self.logical_minimum, self.report_id)
    }

    fn as_c(&self) -> c::Field {
        let mut field = c::Field {
            number: self.id.0,
            kind: c::FieldKind::Array.into(),
            first_bit: self.bits.start,
            end_bit: self.bits.end,
            value_count: self.report_count.0,
            flags: self.attributes.flags,
            ..c::Field::default()
        };
        field.set_report_id(self.report_id);
        field.set_usages(&self.numbers, self.is_usage_range);
        field.measures = c::Measures::of(
            (self.logical_minimum, self.logical_maximum),
            (self.physical_minimum, self.physical_maximum),
            (self.unit, self.unit_exponent),
        );
        field
    }
}

field_attributes!(ArrayField);
