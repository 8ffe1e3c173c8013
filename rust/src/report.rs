//! Reports.
use crate::c;
use crate::error::ParserError;
use crate::field::Field;
use crate::types::ReportId;

/// A report that a descriptor announces (Section 5.6).
pub trait Report {
    /// The id with which the report begins, where it has one.
    fn report_id(&self) -> &Option<ReportId>;

    /// The report's fields, in the order of their bits, padding among them.
    fn fields(&self) -> &[Field];

    /// How many bits the report has, those of its id counted.
    fn size_in_bits(&self) -> usize;

    /// How many bytes the report has, its id counted: its bits, rounded up.
    fn size_in_bytes(&self) -> usize {
        let bits = self.size_in_bits();
        bits / 8 + usize::from(bits % 8 != 0)
    }
}

/// A report that a [`ReportDescriptor`](crate::ReportDescriptor) announces.
#[derive(Clone, Debug, PartialEq)]
pub struct RDescReport {
    pub(crate) report_id: Option<ReportId>,
    pub(crate) fields: Vec<Field>,
    pub(crate) as_c: c::Report,
}

impl RDescReport {
    /// The bytes of the report without values, which its fields may fill: its id, where it has one,
    /// and zeros.
    ///
    /// # Errors
    ///
    /// - `OutOfMemory`: so many bytes were refused; a few bytes can announce a report of 2^60.
    pub fn blank(&self) -> Result<Vec<u8>, ParserError> {
        Ok(c::blank(&self.as_c)?)
    }
}

impl Report for RDescReport {
    fn report_id(&self) -> &Option<ReportId> {
        &self.report_id
    }

    fn fields(&self) -> &[Field] {
        &self.fields
    }

    fn size_in_bits(&self) -> usize {
        self.as_c.size_in_bits
    }
}
