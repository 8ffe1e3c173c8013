//! The numbers of a field as the header has them, and as types.
use crate::c::{Field, Measures, Usages};
use crate::types::{
    LogicalMaximum, LogicalMinimum, PhysicalMaximum, PhysicalMinimum, ReportId, Unit, UnitExponent,
};
use std::ops::Range;

impl Measures {
    pub(crate) fn of(
        logical: (LogicalMinimum, LogicalMaximum),
        physical: (Option<PhysicalMinimum>, Option<PhysicalMaximum>),
        unit: (Option<Unit>, Option<UnitExponent>),
    ) -> Measures {
        Measures {
            logical_minimum: logical.0 .0,
            logical_maximum: logical.1 .0,
            physical_minimum: physical.0.map_or(0, i32::from),
            physical_maximum: physical.1.map_or(0, i32::from),
            unit: unit.0.map_or(0, u32::from),
            unit_exponent: unit.1.map_or(0, i32::from),
            has_physical_minimum: physical.0.is_some(),
            has_physical_maximum: physical.1.is_some(),
            has_unit: unit.0.is_some(),
            has_unit_exponent: unit.1.is_some(),
        }
    }

    pub(crate) fn logical(&self) -> (LogicalMinimum, LogicalMaximum) {
        (LogicalMinimum(self.logical_minimum), LogicalMaximum(self.logical_maximum))
    }

    pub(crate) fn physical(&self) -> (Option<PhysicalMinimum>, Option<PhysicalMaximum>) {
        (
            self.has_physical_minimum.then_some(PhysicalMinimum(self.physical_minimum)),
            self.has_physical_maximum.then_some(PhysicalMaximum(self.physical_maximum)),
        )
    }

    pub(crate) fn unit_and_exponent(&self) -> (Option<Unit>, Option<UnitExponent>) {
        (
            self.has_unit.then_some(Unit(self.unit)),
            self.has_unit_exponent.then_some(UnitExponent(self.unit_exponent)),
        )
    }
}

impl Field {
    /// A field as its values are read and written: where they lie, whether they are signed, and the
    /// id that they are read by.
    pub(crate) fn of_values(
        bits: &Range<usize>,
        value_count: usize,
        minimum: LogicalMinimum,
        report_id: Option<ReportId>,
    ) -> Field {
        let mut field =
            Field { first_bit: bits.start, end_bit: bits.end, value_count, ..Field::default() };
        field.measures.logical_minimum = minimum.0;
        field.set_report_id(report_id);
        field
    }

    pub(crate) fn set_report_id(&mut self, report_id: Option<ReportId>) {
        self.has_report_id = report_id.is_some();
        self.report_id = report_id.map_or(0, u8::from);
    }

    pub(crate) fn set_usages(&mut self, numbers: &[u32], is_range: bool) {
        self.usages = Usages {
            count: numbers.len(),
            first: numbers.first().copied().unwrap_or(0),
            last: numbers.last().copied().unwrap_or(0),
            is_range,
        };
    }
}
