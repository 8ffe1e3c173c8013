//! What the library lists of a descriptor, put together.
use crate::array_field::ArrayField;
use crate::c::{self, Direction, FieldKind};
use crate::collection::{Collection, CollectionId, CollectionType};
use crate::constant_field::ConstantField;
use crate::error::ParserError;
use crate::field::{Field, FieldId};
use crate::field_attributes::Attributes;
use crate::report::RDescReport;
use crate::types::{ReportCount, ReportId};
use crate::usage::Usage;
use crate::variable_field::VariableField;
use std::sync::Arc;

/// The reports of a direction with their fields.
///
/// The descriptor is read once for the reports; where there are any, once for their fields, once for
/// the collections around these, if there are any, and at most twice more: for usages that aren't
/// told with these. How many there are of each is known before.
pub(crate) fn reports(
    bytes: &[u8],
    options: c::Options,
    direction: Direction,
) -> Result<Vec<RDescReport>, ParserError> {
    if !may_have_reports(bytes, direction) {
        return Ok(Vec::new());
    }
    let reports = c::reports(bytes, options, direction)?;
    if reports.is_empty() {
        return Ok(Vec::new());
    }
    let count = sum(reports.iter().map(|report| report.field_count));
    let fields = c::describe_with_room(bytes, options, direction, count)?;
    let usages = match fields.iter().any(|field| is_array(field) && !counts_up(&field.usages)) {
        true => {
            let count = sum(fields.iter().map(|field| field.usages.count));
            c::describe_usages_with_room(bytes, options, direction, count)?
        }
        false => Vec::new(),
    };
    let around = match sum(fields.iter().map(|field| field.collections.count)) {
        0 => Vec::new(),
        count => c::describe_collections_with_room(bytes, options, direction, count)?,
    };
    let numbers = match around.iter().any(|collection| collection.usage_count > 1) {
        true => {
            let count = sum(around.iter().map(|collection| collection.usage_count));
            c::describe_collection_usages_with_room(bytes, options, direction, count)?
        }
        false => Vec::new(),
    };
    let reading = Reading {
        direction,
        usages: Taken::of(&usages),
        around: Taken::of(&around),
        numbers: Taken::of(&numbers),
        known: Vec::new(),
    };
    reading.reports(&reports, &fields)
}

/// Whether a direction may have reports: a byte may be the header of an Output or a Feature (Section
/// 6.2.2.4), whose lowest bits say how many bytes follow. Input is always asked for, as one direction
/// has to be whose answer tells a refusal.
fn may_have_reports(bytes: &[u8], direction: Direction) -> bool {
    let header = match direction {
        Direction::Input => return true,
        Direction::Output => 0x90,
        Direction::Feature => 0xb0,
    };
    bytes.iter().any(|byte| byte & 0xfc == header)
}

/// The library has counted these together before.
fn sum(counts: impl Iterator<Item = usize>) -> usize {
    counts.fold(0, usize::saturating_add)
}

fn is_array(field: &c::Field) -> bool {
    FieldKind::try_from(field.kind) == Ok(FieldKind::Array)
}

/// Whether usages are all those from the first to the last.
fn counts_up(usages: &c::Usages) -> bool {
    let between = u64::from(usages.last).checked_sub(u64::from(usages.first));
    usages.is_range && between.map(|more| more + 1) == Some(usages.count as u64)
}

/// A list that is taken from its front; an empty one wasn't asked for.
struct Taken<'a, T> {
    left: &'a [T],
}

impl<'a, T> Taken<'a, T> {
    fn of(list: &'a [T]) -> Taken<'a, T> {
        Taken { left: list }
    }

    /// The next of them, so many; none of a list that wasn't asked for.
    fn take(&mut self, count: usize) -> &'a [T] {
        let (taken, left) = self.left.split_at(count.min(self.left.len()));
        self.left = left;
        taken
    }
}

/// The fields of a direction, which are gone over in their order, with what is listed of them.
struct Reading<'a> {
    direction: Direction,
    /// The usages of the fields.
    usages: Taken<'a, u32>,
    /// The collections around the fields.
    around: Taken<'a, c::Collection>,
    /// The usages of these collections.
    numbers: Taken<'a, u32>,
    /// Each collection that was seen, at its number.
    known: Vec<Option<Collection>>,
}

impl Reading<'_> {
    /// The fields are listed report by report.
    fn reports(
        mut self,
        reports: &[c::Report],
        fields: &[c::Field],
    ) -> Result<Vec<RDescReport>, ParserError> {
        let mut read = with_room(reports.len())?;
        let mut fields = Taken::of(fields);
        for report in reports {
            let own = fields.take(report.field_count);
            read.push(self.report(report, own)?);
        }
        Ok(read)
    }

    fn report(&mut self, report: &c::Report, own: &[c::Field]) -> Result<RDescReport, ParserError> {
        let mut fields = with_room(own.len())?;
        for field in own {
            fields.push(self.field(field)?);
        }
        let report_id = report.has_id.then_some(ReportId(report.id));
        Ok(RDescReport { report_id, fields, as_c: *report })
    }

    fn field(&mut self, field: &c::Field) -> Result<Field, ParserError> {
        let usages = self.usages.take(field.usages.count);
        let collections = self.collections(field.collections.count)?;
        let id = FieldId(field.number);
        let report_id = field.has_report_id.then_some(ReportId(field.report_id));
        let bits = field.first_bit..field.end_bit;
        let kind =
            FieldKind::try_from(field.kind).expect("the library of this version has no other");
        if kind == FieldKind::Constant {
            return Ok(Field::Constant(ConstantField { id, report_id, bits }));
        }
        let is_input = self.direction == Direction::Input;
        let attributes = Attributes { flags: field.flags, is_input };
        let measures = field.measures;
        let (logical_minimum, logical_maximum) = measures.logical();
        let (physical_minimum, physical_maximum) = measures.physical();
        let (unit, unit_exponent) = measures.unit_and_exponent();
        Ok(if kind == FieldKind::Variable {
            Field::Variable(VariableField {
                id,
                report_id,
                bits,
                usage: field.usages.first.into(),
                logical_minimum,
                logical_maximum,
                physical_minimum,
                physical_maximum,
                unit,
                unit_exponent,
                collections,
                attributes,
            })
        } else {
            let numbers = array_usages(&field.usages, usages)?;
            Field::Array(ArrayField {
                id,
                report_id,
                bits,
                report_count: ReportCount(field.value_count),
                logical_minimum,
                logical_maximum,
                physical_minimum,
                physical_maximum,
                unit,
                unit_exponent,
                collections,
                usages: usages_of(&numbers)?,
                numbers,
                is_usage_range: field.usages.is_range,
                attributes,
            })
        })
    }

    /// The next collections, so many: those around a field, outermost first.
    fn collections(&mut self, count: usize) -> Result<Vec<Collection>, ParserError> {
        let mut read = with_room(count)?;
        for of in self.around.take(count) {
            let numbers = self.numbers.take(of.usage_count);
            let collection = match self.known.get(of.number as usize) {
                Some(Some(known)) => known.clone(),
                _ => self.first_seen(of, numbers)?,
            };
            read.push(collection);
        }
        Ok(read)
    }

    /// A collection that no field before lies in. Where it has one usage at most, that is told with
    /// it.
    fn first_seen(
        &mut self,
        of: &c::Collection,
        numbers: &[u32],
    ) -> Result<Collection, ParserError> {
        let usages = match of.usage_count {
            0 | 1 => usages_of(&[of.usage][..of.usage_count])?,
            _ => usages_of(numbers)?,
        };
        let collection = Collection {
            id: CollectionId(of.number),
            collection_type: CollectionType::try_from(of.kind)
                .expect("the library of this version has no other"),
            usages: Arc::new(usages),
        };
        let place = of.number as usize;
        if self.known.len() <= place {
            let lacking = place + 1 - self.known.len();
            self.known.try_reserve(lacking).map_err(|_| ParserError::OutOfMemory)?;
            self.known.resize(place + 1, None);
        }
        self.known[place] = Some(collection.clone());
        Ok(collection)
    }
}

/// The usages of an array, where they weren't asked for those from the first to the last.
fn array_usages(told: &c::Usages, listed: &[u32]) -> Result<Vec<u32>, ParserError> {
    let mut numbers = with_room(told.count)?;
    match counts_up(told) {
        true => numbers.extend(told.first..=told.last),
        false => numbers.extend_from_slice(listed),
    }
    Ok(numbers)
}

fn usages_of(numbers: &[u32]) -> Result<Vec<Usage>, ParserError> {
    let mut usages = with_room(numbers.len())?;
    usages.extend(numbers.iter().map(|number| Usage::from(*number)));
    Ok(usages)
}

/// An empty list with room for so many.
pub(crate) fn with_room<T>(count: usize) -> Result<Vec<T>, ParserError> {
    let mut list = Vec::new();
    list.try_reserve_exact(count).map_err(|_| ParserError::OutOfMemory)?;
    Ok(list)
}
