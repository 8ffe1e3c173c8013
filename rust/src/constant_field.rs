//! Padding.
use crate::field::FieldId;
use crate::types::ReportId;
use crate::usage::Usage;
use std::ops::Range;

/// Bits of a report that carry no value (Section 6.2.2.5).
#[derive(Clone, Debug, PartialEq)]
pub struct ConstantField {
    pub(crate) id: FieldId,
    pub(crate) report_id: Option<ReportId>,
    /// The bits in their report, those of the report's id counted.
    pub bits: Range<usize>,
}

impl ConstantField {
    /// None: padding has no usages.
    pub fn usages(&self) -> &[Usage] {
        &[]
    }
}
