//! Report descriptors that were read.
use crate::c::Direction;
use crate::error::ParserError;
use crate::options::ParseOptions;
use crate::reading::reports;
use crate::report::RDescReport;
use crate::types::ReportId;

/// A report descriptor that was read (Section 6.2.2): the reports that a device announces.
///
/// It owns what it has, and may be sent to other threads and shared by them.
#[derive(Clone, Debug, PartialEq)]
pub struct ReportDescriptor {
    input: Vec<RDescReport>,
    output: Vec<RDescReport>,
    feature: Vec<RDescReport>,
}

impl ReportDescriptor {
    /// The descriptor that these bytes are, by these options.
    ///
    /// # Errors
    ///
    /// - [`ParserError::InvalidData`]: an item can't be read, or means nothing where it stands; of
    ///   the first such, those that can't be read before all others.
    /// - [`ParserError::OutOfBounds`]: a report's end or a count passes what can be counted.
    /// - [`ParserError::BudgetExceeded`]: more is listed than the limit, or there are more than
    ///   65,536 bytes under one.
    /// - [`ParserError::OutOfMemory`]: memory was refused.
    pub fn try_from_with(
        bytes: &[u8],
        options: ParseOptions,
    ) -> Result<ReportDescriptor, ParserError> {
        let options = options.into();
        Ok(ReportDescriptor {
            input: reports(bytes, options, Direction::Input)?,
            output: reports(bytes, options, Direction::Output)?,
            feature: reports(bytes, options, Direction::Feature)?,
        })
    }

    /// The input reports, in the order of their first fields.
    pub fn input_reports(&self) -> &[RDescReport] {
        &self.input
    }

    /// The output reports, in the order of their first fields.
    pub fn output_reports(&self) -> &[RDescReport] {
        &self.output
    }

    /// The feature reports, in the order of their first fields.
    pub fn feature_reports(&self) -> &[RDescReport] {
        &self.feature
    }

    /// The reports of a direction, in the order of their first fields.
    pub fn reports(&self, direction: Direction) -> &[RDescReport] {
        match direction {
            Direction::Input => &self.input,
            Direction::Output => &self.output,
            Direction::Feature => &self.feature,
        }
    }

    /// The report of a direction with this id, or the one without.
    pub fn report(&self, direction: Direction, id: Option<ReportId>) -> Option<&RDescReport> {
        self.reports(direction).iter().find(|report| report.report_id == id)
    }

    /// The report of a direction that a report's bytes are of (Section 5.6): the first where it has
    /// no id, else the one with the first byte as its id. `None` where there is none, or no bytes.
    pub fn find_report(&self, direction: Direction, bytes: &[u8]) -> Option<&RDescReport> {
        let id = ReportId(*bytes.first()?);
        let first = self.reports(direction).first()?;
        match first.report_id {
            None => Some(first),
            Some(_) => self.report(direction, Some(id)),
        }
    }

    /// The input report that a report's bytes are of, as [`find_report`](Self::find_report) says.
    pub fn find_input_report(&self, bytes: &[u8]) -> Option<&RDescReport> {
        self.find_report(Direction::Input, bytes)
    }

    /// The output report that a report's bytes are of, as [`find_report`](Self::find_report) says.
    pub fn find_output_report(&self, bytes: &[u8]) -> Option<&RDescReport> {
        self.find_report(Direction::Output, bytes)
    }

    /// The feature report that a report's bytes are of, as [`find_report`](Self::find_report) says.
    pub fn find_feature_report(&self, bytes: &[u8]) -> Option<&RDescReport> {
        self.find_report(Direction::Feature, bytes)
    }
}

impl TryFrom<&[u8]> for ReportDescriptor {
    type Error = ParserError;

    /// By the default options: as the standard has it, without a limit.
    fn try_from(bytes: &[u8]) -> Result<ReportDescriptor, ParserError> {
        ReportDescriptor::try_from_with(bytes, ParseOptions::default())
    }
}

impl TryFrom<&Vec<u8>> for ReportDescriptor {
    type Error = ParserError;

    /// By the default options: as the standard has it, without a limit.
    fn try_from(bytes: &Vec<u8>) -> Result<ReportDescriptor, ParserError> {
        ReportDescriptor::try_from(bytes.as_slice())
    }
}
