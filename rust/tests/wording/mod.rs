//! Descriptors and readings in the words of the cases.
use hidreport::{
    ArrayField, Collection, CollectionType, Field, FieldAttributes, FieldValue, LogicalMaximum,
    LogicalMinimum, ParserError, PhysicalMaximum, PhysicalMinimum, RDescReport, Report,
    ReportDescriptor, Unit, UnitExponent, Usage,
};

/// The bytes of words: hexadecimal digits, two for a byte; `3*a4` is `a4a4a4`, `-` none.
pub fn bytes_of(words: &str) -> Vec<u8> {
    words.split(' ').filter(|word| *word != "-").flat_map(word_bytes).collect()
}

fn word_bytes(word: &str) -> Vec<u8> {
    if let Some((times, digits)) = word.split_once('*') {
        return word_bytes(digits).repeat(times.parse().expect("a number"));
    }
    let digit = |at: usize| u8::from_str_radix(&word[at..at + 2], 16).expect("two digits");
    (0..word.len()).step_by(2).map(digit).collect()
}

fn directions(descriptor: &ReportDescriptor) -> [(&'static str, &[RDescReport]); 3] {
    [
        ("input", descriptor.input_reports()),
        ("output", descriptor.output_reports()),
        ("feature", descriptor.feature_reports()),
    ]
}

pub fn add_descriptor(descriptor: &ReportDescriptor, has_ids: bool) -> String {
    let mut text = String::new();
    for (direction, reports) in directions(descriptor) {
        for report in reports {
            let id = report.report_id().map(|id| format!(" id {id}")).unwrap_or_default();
            let (bits, bytes) = (report.size_in_bits(), report.size_in_bytes());
            text += &format!("{direction}{id} {bits} bits {bytes} bytes\n");
            text.extend(report.fields().iter().map(|field| line_of(field, has_ids)));
        }
    }
    if text.is_empty() {
        "no reports\n".into()
    } else {
        text
    }
}

fn line_of(field: &Field, has_ids: bool) -> String {
    let (bits, usages) = (field.bits(), words_of(field.usages()));
    let (first, end) = (bits.start, bits.end);
    let mut line = match field {
        Field::Variable(field) => {
            format!("  variable {first}..{end} {usages}")
                + &measures(
                    (field.logical_minimum, field.logical_maximum),
                    (field.physical_minimum, field.physical_maximum),
                    (field.unit, field.unit_exponent),
                )
                + &letters(field)
        }
        Field::Array(field) => {
            let count = field.report_count;
            format!("  array {first}..{end} count {count} ({usages})")
                + &range(field)
                + &measures(
                    (field.logical_minimum, field.logical_maximum),
                    (field.physical_minimum, field.physical_maximum),
                    (field.unit, field.unit_exponent),
                )
                + &letters(field)
        }
        Field::Constant(_) => format!("  constant {first}..{end} ({usages})"),
    };
    if has_ids {
        line += &format!(" #{}", u32::from(field.id()));
    }
    line.extend(field.collections().iter().map(|collection| words_around(collection, has_ids)));
    line + "\n"
}

fn words_of(usages: &[Usage]) -> String {
    let words: Vec<String> =
        usages.iter().map(|usage| format!("{:08x}", u32::from(usage))).collect();
    words.join(" ")
}

fn range(field: &ArrayField) -> String {
    let range = match field.usage_range() {
        Some(range) => {
            format!(" {:08x}..{:08x}", u32::from(range.minimum()), u32::from(range.maximum()))
        }
        None => String::new(),
    };
    format!("{}{range}", if field.is_usage_range() { " range" } else { "" })
}

fn measures(
    (minimum, maximum): (LogicalMinimum, LogicalMaximum),
    physical: (Option<PhysicalMinimum>, Option<PhysicalMaximum>),
    unit: (Option<Unit>, Option<UnitExponent>),
) -> String {
    let sign = if i32::from(minimum) < 0 { "signed" } else { "unsigned" };
    let mut text = format!(" {sign} {minimum}..{maximum}");
    text.extend(physical.0.map(|minimum| format!(" from {minimum}")));
    text.extend(physical.1.map(|maximum| format!(" to {maximum}")));
    text.extend(unit.0.map(|unit| format!(" unit {:08x}", u32::from(unit))));
    text.extend(unit.1.map(|exponent| format!(" exponent {exponent}")));
    text
}

fn letters(field: &impl FieldAttributes) -> String {
    let flags = [
        (field.is_relative(), field.is_absolute(), 'R'),
        (field.wraps(), field.does_not_wrap(), 'W'),
        (field.is_nonlinear(), field.is_linear(), 'N'),
        (field.has_no_preferred_state(), field.has_preferred_state(), 'P'),
        (field.has_null_state(), field.has_no_null_state(), 'Z'),
        (field.is_buffered_bytes(), field.is_bitfield(), 'B'),
    ];
    let mut text = String::from(" ");
    for (holds, opposite, letter) in flags {
        assert_ne!(holds, opposite);
        text.push(if holds { letter } else { letter.to_ascii_lowercase() });
    }
    assert_eq!(field.is_volatile(), field.is_nonvolatile().map(|holds| !holds));
    text.extend(field.is_volatile().map(|holds| if holds { 'V' } else { 'v' }));
    text
}

fn words_around(collection: &Collection, has_ids: bool) -> String {
    let id = match has_ids {
        true => format!("#{} ", u32::from(*collection.id())),
        false => String::new(),
    };
    let kind = match collection.collection_type() {
        CollectionType::Reserved { value } => format!("Reserved {value:02x}"),
        CollectionType::VendorDefined { value } => format!("VendorDefined {value:02x}"),
        named => format!("{named:?}"),
    };
    format!(" in {id}{kind}({})", words_of(collection.usages()))
}

/// A line for each direction that has reports: what the report of these bytes is, and what each
/// field of the direction reads.
pub fn add_readings(descriptor: &ReportDescriptor, bytes: &[u8]) -> String {
    let found = [
        descriptor.find_input_report(bytes),
        descriptor.find_output_report(bytes),
        descriptor.find_feature_report(bytes),
    ];
    let mut text = String::new();
    for ((direction, reports), found) in directions(descriptor).into_iter().zip(found) {
        if reports.is_empty() {
            continue;
        }
        text += &match found.map(|report| report.report_id()) {
            Some(Some(id)) => format!("{direction} id {id}:"),
            Some(None) => format!("{direction} found:"),
            None => format!("{direction} none:"),
        };
        for field in reports.iter().flat_map(|report| report.fields()) {
            text += &format!(" {}", readings(field, bytes));
        }
        text.push('\n');
    }
    text
}

fn readings(field: &Field, bytes: &[u8]) -> String {
    match field {
        Field::Variable(field) => word_of(field.extract(bytes)),
        Field::Array(field) => {
            let all = match field.extract(bytes) {
                Ok(values) => values.into_iter().map(|value| word_of(Ok(value))).collect(),
                Err(error) => vec![word_of(Err(error))],
            };
            // Each element by itself, and the one behind the last.
            let one_by_one = (0..=usize::from(field.report_count))
                .map(|index| word_of(field.extract_one(bytes, index)));
            format!("[{}] {}", all.join(" "), one_by_one.collect::<Vec<_>>().join(" "))
        }
        Field::Constant(_) => "-".into(),
    }
}

fn word_of(value: Result<FieldValue, ParserError>) -> String {
    match value {
        Ok(value) => i64::from(value).to_string(),
        Err(ParserError::OutOfBounds) => "outside".into(),
        Err(ParserError::MismatchingReportId) => "another".into(),
        Err(other) => panic!("{other}"),
    }
}
