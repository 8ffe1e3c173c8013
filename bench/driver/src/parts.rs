// What is asked of the Rust crate, and of the package in rust/, which has its names.
use crate::facts::{Facts, Frames, mixed};
use hidreport::{ArrayField, Field, Report, ReportDescriptor, VariableField};
use std::hint::black_box;

pub fn parse(bytes: &[u8]) -> usize {
    match black_box(ReportDescriptor::try_from(black_box(bytes))) {
        Ok(descriptor) => descriptor.input_reports().len(),
        Err(_) => usize::MAX,
    }
}

pub fn read(bytes: &[u8], frames: &Frames, rounds: usize) -> u64 {
    let Ok(descriptor) = ReportDescriptor::try_from(bytes) else {
        return u64::MAX;
    };
    let descriptor = black_box(descriptor);
    let mut mix = 0;
    for _ in 0..rounds {
        for frame in black_box(&frames.bytes).chunks_exact(frames.size) {
            mix = mix_of_frame(&descriptor, frame, mix);
        }
    }
    mix
}

fn mix_of_frame(descriptor: &ReportDescriptor, frame: &[u8], mix: u64) -> u64 {
    let (mix, rest) = mix_of_reports(descriptor.input_reports(), frame, mix);
    let (mix, rest) = mix_of_reports(descriptor.output_reports(), rest, mix);
    mix_of_reports(descriptor.feature_reports(), rest, mix).0
}

fn mix_of_reports<'a>(reports: &[impl Report], frame: &'a [u8], mix: u64) -> (u64, &'a [u8]) {
    let mut mix = mix;
    let mut rest = frame;
    for report in reports {
        let size = report.size_in_bytes();
        if size > rest.len() {
            return (u64::MAX, rest);
        }
        let (bytes, behind) = rest.split_at(size);
        mix = mix_of_report(report, bytes, mix);
        rest = behind;
    }
    (mix, rest)
}

fn mix_of_report(report: &impl Report, bytes: &[u8], mix: u64) -> u64 {
    let mut mix = mix;
    for field in report.fields() {
        match field {
            Field::Variable(field) => {
                if let Ok(value) = field.extract(bytes) {
                    mix = mixed(mix, u64::from(u32::from(value)));
                }
            }
            Field::Array(field) => {
                if let Ok(values) = field.extract(bytes) {
                    for value in values {
                        mix = mixed(mix, u64::from(u32::from(value)));
                    }
                }
            }
            Field::Constant(_) => {}
        }
    }
    mix
}

/// Frames of reports with bytes by chance, each report that has an id with it in front.
pub fn frames(bytes: &[u8], seed: u64) -> Result<Frames, String> {
    let descriptor =
        ReportDescriptor::try_from(bytes).map_err(|error| format!("refused: {error}"))?;
    let mut frames = Frames {
        bytes: Vec::new(),
        size: 0,
    };
    let mut state = seed;
    for _ in 0..Frames::COUNT {
        add_reports_bytes(&mut frames.bytes, descriptor.input_reports(), &mut state);
        add_reports_bytes(&mut frames.bytes, descriptor.output_reports(), &mut state);
        add_reports_bytes(&mut frames.bytes, descriptor.feature_reports(), &mut state);
    }
    frames.size = frames.bytes.len() / Frames::COUNT;
    Ok(frames)
}

/// How many bytes and how many values each report has, in the order of a frame.
#[allow(dead_code)]
pub fn report_sizes(bytes: &[u8]) -> Vec<(usize, u64)> {
    let mut sizes = Vec::new();
    if let Ok(descriptor) = ReportDescriptor::try_from(bytes) {
        add_sizes(&mut sizes, descriptor.input_reports());
        add_sizes(&mut sizes, descriptor.output_reports());
        add_sizes(&mut sizes, descriptor.feature_reports());
    }
    sizes
}

fn add_sizes(sizes: &mut Vec<(usize, u64)>, reports: &[impl Report]) {
    for report in reports {
        let values = report.fields().iter().map(|field| match field {
            Field::Variable(_) => 1,
            Field::Array(field) => usize::from(field.report_count) as u64,
            Field::Constant(_) => 0,
        });
        sizes.push((report.size_in_bytes(), values.sum()));
    }
}

fn add_reports_bytes(bytes: &mut Vec<u8>, reports: &[impl Report], state: &mut u64) {
    for report in reports {
        let first = bytes.len();
        for _ in 0..report.size_in_bytes() {
            *state ^= *state << 13;
            *state ^= *state >> 7;
            *state ^= *state << 17;
            bytes.push(*state as u8);
        }
        if let Some(id) = report.report_id() {
            bytes[first] = u8::from(id);
        }
    }
}

pub fn facts(bytes: &[u8]) -> Facts {
    let mut facts = Facts::default();
    if let Ok(descriptor) = ReportDescriptor::try_from(bytes) {
        add_reports(&mut facts, descriptor.input_reports());
        add_reports(&mut facts, descriptor.output_reports());
        add_reports(&mut facts, descriptor.feature_reports());
    }
    facts
}

fn add_reports(facts: &mut Facts, reports: &[impl Report]) {
    facts.add(reports.len() as u64);
    for report in reports {
        facts.reports += 1;
        facts.frame_size += report.size_in_bytes() as u64;
        facts.add(
            report
                .report_id()
                .as_ref()
                .map_or(256, |id| u64::from(u8::from(id))),
        );
        facts.add(report.size_in_bits() as u64);
        for field in report.fields() {
            facts.fields += 1;
            add_field(facts, field);
        }
    }
}

fn add_field(facts: &mut Facts, field: &Field) {
    facts.bits += (field.bits().end - field.bits().start) as u64;
    facts.add(field.bits().start as u64);
    facts.add(field.bits().end as u64);
    facts.add(field.collections().len() as u64);
    for collection in field.collections() {
        facts.add(collection.usages().len() as u64);
    }
    match field {
        Field::Variable(field) => add_variable(facts, field),
        Field::Array(field) => add_array(facts, field),
        Field::Constant(_) => facts.add(3),
    }
}

fn add_variable(facts: &mut Facts, field: &VariableField) {
    facts.usages += u64::from(u32::from(field.usage));
    facts.add(1);
    facts.add(u64::from(u32::from(field.usage)));
    facts.add(i64::from(i32::from(field.logical_minimum)).cast_unsigned());
    facts.add(i64::from(i32::from(field.logical_maximum)).cast_unsigned());
    facts.add(field.unit.map_or(0, |unit| u64::from(u32::from(unit))));
}

fn add_array(facts: &mut Facts, field: &ArrayField) {
    facts.add(2);
    facts.add(usize::from(field.report_count) as u64);
    for usage in field.usages() {
        facts.add(u64::from(u32::from(usage)));
    }
}
