//! Descriptors and what their fields read, as text.
use hidreport::{
    ArrayField, Collection, CollectionType, Field, FieldAttributes, FieldValue, ParserError,
    Report, ReportDescriptor, Usage, VariableField,
};
use std::panic::{AssertUnwindSafe, catch_unwind};

/// What a call answers, or the message of its panic.
pub fn caught<T>(call: impl FnOnce() -> T) -> Result<T, String> {
    catch_unwind(AssertUnwindSafe(call)).map_err(|thrown| {
        if let Some(text) = thrown.downcast_ref::<String>() {
            return text.clone();
        }
        thrown.downcast_ref::<&str>().unwrap_or(&"?").to_string()
    })
}

pub fn bytes_text(bytes: &[u8]) -> String {
    bytes.iter().map(|byte| format!("{byte:02x}")).collect()
}

pub fn kind_text(kind: CollectionType) -> String {
    match kind {
        CollectionType::Physical => "Physical".to_string(),
        CollectionType::Application => "Application".to_string(),
        CollectionType::Logical => "Logical".to_string(),
        CollectionType::Report => "Report".to_string(),
        CollectionType::NamedArray => "NamedArray".to_string(),
        CollectionType::UsageSwitch => "UsageSwitch".to_string(),
        CollectionType::UsageModifier => "UsageModifier".to_string(),
        CollectionType::Reserved { value } => format!("Reserved {value:02x}"),
        CollectionType::VendorDefined { value } => format!("VendorDefined {value:02x}"),
    }
}

/// The first letter where the first of two opposites holds, the second where the other does.
pub fn flag(holds: bool, opposite: bool, letters: [&str; 2]) -> String {
    let mut text = String::new();
    if holds {
        text += letters[0];
    }
    if opposite {
        text += letters[1];
    }
    text
}

fn usages_text(usages: &[Usage]) -> String {
    let texts: Vec<String> = usages.iter().map(|usage| format!("{:08x}", u32::from(usage))).collect();
    texts.join(" ")
}

/// The refusal of a descriptor, or its reports with their fields.
pub fn shape_text(descriptor: &[u8]) -> String {
    match caught(|| ReportDescriptor::try_from(descriptor)) {
        Ok(Ok(descriptor)) => {
            let mut text = reports_text("input", descriptor.input_reports());
            text += &reports_text("output", descriptor.output_reports());
            text += &reports_text("feature", descriptor.feature_reports());
            if text.is_empty() { "no reports\n".to_string() } else { text }
        }
        Ok(Err(error)) => refusal_text(&error),
        Err(message) => format!("panics at {}: {message}\n", panic_place(descriptor)),
    }
}

/// The offset of the item at which parsing panics: the last one of the shortest list of items that does.
fn panic_place(bytes: &[u8]) -> usize {
    let items = hidreport::hid::ReportDescriptorItems::try_from(bytes).unwrap();
    let offsets: Vec<usize> = items.iter().map(|item| item.offset()).collect();
    let ends = offsets.iter().skip(1).copied().chain([bytes.len()]);
    let panics = |end: usize| caught(|| ReportDescriptor::try_from(&bytes[..end]).is_ok()).is_err();
    let (offset, _) = offsets.iter().zip(ends).find(|(_, end)| panics(*end)).unwrap();
    *offset
}

pub fn refusal_text(error: &ParserError) -> String {
    match error {
        ParserError::InvalidData { offset, message } => format!("refused at {offset}: {message}\n"),
        ParserError::OutOfBounds => "refused: out of bounds\n".to_string(),
        ParserError::MismatchingReportId => "refused: another report id\n".to_string(),
    }
}

fn reports_text(direction: &str, reports: &[impl Report]) -> String {
    let mut text = String::new();
    for report in reports {
        text += direction;
        if let Some(id) = report.report_id() {
            text += &format!(" id {id}");
        }
        text += &format!(" {} bits {} bytes\n", report.size_in_bits(), report.size_in_bytes());
        for field in report.fields() {
            text += &field_text(field);
        }
    }
    text
}

fn field_text(field: &Field) -> String {
    let text = match field {
        Field::Variable(field) => variable_text(field),
        Field::Array(field) => array_text(field),
        Field::Constant(field) => {
            format!("constant {:?} ({})", field.bits, usages_text(field.usages()))
        }
    };
    format!("  {text}{}\n", collections_text(field.collections()))
}

fn variable_text(field: &VariableField) -> String {
    let mut text = format!("variable {:?} {:08x}", field.bits, u32::from(field.usage));
    text += if field.is_signed() { " signed" } else { " unsigned" };
    text += &format!(" {}..{}", field.logical_minimum, field.logical_maximum);
    text += &named("from", field.physical_minimum.map(i32::from));
    text += &named("to", field.physical_maximum.map(i32::from));
    if let Some(unit) = field.unit {
        text += &format!(" unit {:08x}", u32::from(unit));
    }
    text += &named("exponent", field.unit_exponent.map(i32::from));
    text + &attributes_text(field)
}

fn array_text(field: &ArrayField) -> String {
    let usages = usages_text(field.usages());
    let mut text = format!("array {:?} count {} ({usages})", field.bits, field.report_count);
    if field.is_usage_range() {
        text += " range";
    }
    // The crate panics at a range without usages, which no descriptor gives.
    if let Some(range) = field.usage_range() {
        let minimum = u32::from(range.minimum());
        let maximum = u32::from(range.maximum());
        text += &format!(" {minimum:08x}..{maximum:08x}");
    }
    text += if field.is_signed() { " signed" } else { " unsigned" };
    text += &format!(" {}..{}", field.logical_minimum, field.logical_maximum);
    text += &named("from", field.physical_minimum.map(i32::from));
    text += &named("to", field.physical_maximum.map(i32::from));
    if let Some(unit) = field.unit {
        text += &format!(" unit {:08x}", u32::from(unit));
    }
    text += &named("exponent", field.unit_exponent.map(i32::from));
    text + &attributes_text(field)
}

fn named(name: &str, number: Option<i32>) -> String {
    number.map_or(String::new(), |number| format!(" {name} {number}"))
}

fn attributes_text(field: &impl FieldAttributes) -> String {
    let mut text = " ".to_string();
    text += &flag(field.is_relative(), field.is_absolute(), ["R", "r"]);
    text += &flag(field.wraps(), field.does_not_wrap(), ["W", "w"]);
    text += &flag(field.is_nonlinear(), field.is_linear(), ["N", "n"]);
    text += &flag(field.has_no_preferred_state(), field.has_preferred_state(), ["P", "p"]);
    text += &flag(field.has_null_state(), field.has_no_null_state(), ["Z", "z"]);
    text += &flag(field.is_buffered_bytes(), field.is_bitfield(), ["B", "b"]);
    match (field.is_volatile(), field.is_nonvolatile()) {
        (Some(holds), Some(opposite)) => text + &flag(holds, opposite, ["V", "v"]),
        (None, None) => text,
        _ => text + "?",
    }
}

fn collections_text(collections: &[Collection]) -> String {
    let text_of = |collection: &Collection| {
        let kind = kind_text(collection.collection_type());
        format!(" in {kind}({})", usages_text(collection.usages()))
    };
    collections.iter().map(text_of).collect()
}

/// What the fields of a descriptor read from a report's bytes.
pub fn readings_text(descriptor: &ReportDescriptor, bytes: &[u8]) -> String {
    let found = descriptor.find_input_report(bytes);
    let mut text = direction_text("input", found, descriptor.input_reports(), bytes);
    let found = descriptor.find_output_report(bytes);
    text += &direction_text("output", found, descriptor.output_reports(), bytes);
    let found = descriptor.find_feature_report(bytes);
    text + &direction_text("feature", found, descriptor.feature_reports(), bytes)
}

/// Whether the crate reads some array wrongly: it takes the sign of an element at the width of the whole array.
pub fn reads_signs_wrongly(descriptor: &ReportDescriptor) -> bool {
    let is_wrong = |field: &Field| match field {
        Field::Array(field) => field.is_signed() && usize::from(field.report_count) > 1,
        _ => false,
    };
    descriptor.input_reports().iter().any(|report| report.fields().iter().any(is_wrong))
        || descriptor.output_reports().iter().any(|report| report.fields().iter().any(is_wrong))
        || descriptor.feature_reports().iter().any(|report| report.fields().iter().any(is_wrong))
}

fn direction_text(
    direction: &str,
    found: Option<&impl Report>,
    reports: &[impl Report],
    bytes: &[u8],
) -> String {
    if reports.is_empty() {
        return String::new();
    }
    let mut text = format!("{direction} ");
    match found.map(|report| report.report_id()) {
        Some(Some(id)) => text += &format!("id {id}:"),
        Some(None) => text += "found:",
        None => text += "none:",
    }
    for field in reports.iter().flat_map(|report| report.fields()) {
        text += &match field {
            Field::Variable(field) => format!(" {}", value_text(caught(|| field.extract(bytes)))),
            Field::Array(field) => elements_text(field, bytes),
            Field::Constant(_) => " -".to_string(),
        };
    }
    text + "\n"
}

/// The values of an array at once, each by itself, and the one behind the last.
fn elements_text(field: &ArrayField, bytes: &[u8]) -> String {
    let count = usize::from(field.report_count);
    let all = match caught(|| field.extract(bytes)) {
        Ok(Ok(values)) => {
            let texts: Vec<String> = values.into_iter().map(|value| value_text(Ok(Ok(value)))).collect();
            texts.join(" ")
        }
        Ok(Err(error)) => error_text(&error).to_string(),
        Err(_) => "outside".to_string(),
    };
    let mut text = format!(" [{all}]");
    for index in 0..=count {
        text += &format!(" {}", value_text(caught(|| field.extract_one(bytes, index))));
    }
    text
}

/// A value that was read; the crate panics where the bits lie outside the report, or are none or more than 32.
fn value_text(answer: Result<Result<FieldValue, ParserError>, String>) -> String {
    match answer {
        Ok(Ok(value)) if value.is_signed() => i32::from(value).to_string(),
        Ok(Ok(value)) => u32::from(value).to_string(),
        Ok(Err(error)) => error_text(&error).to_string(),
        Err(_) => "outside".to_string(),
    }
}

fn error_text(error: &ParserError) -> &'static str {
    match error {
        ParserError::InvalidData { .. } => "invalid",
        ParserError::OutOfBounds => "outside",
        ParserError::MismatchingReportId => "another",
    }
}
