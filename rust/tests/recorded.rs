//! Asks this package what the library's own cases ask (tests/hidreport_cases/data of the
//! repository): descriptors and reports with the answers of the Rust crate, of the standard and of
//! independent models. HIDREPORT_CASES names another folder with them.
mod wording;

use hidreport::{Field, Report, ReportDescriptor};
use hidreport::{InsertError, ParseOptions, ParserError, PushKeeps};
use std::collections::BTreeMap;
use std::path::{Path, PathBuf};
use std::{env, fs};
use wording::{add_descriptor, add_readings, bytes_of};

/// The descriptor that was read last, for the questions about it.
type Read = Option<ReportDescriptor>;

/// Whether a descriptor lists more than a million: such are asked for their numbers alone.
fn is_great(bytes: &[u8]) -> bool {
    let million = ParseOptions { limit: Some(1_000_000), ..ParseOptions::default() };
    let answer = ReportDescriptor::try_from_with(bytes, million);
    matches!(answer, Err(ParserError::BudgetExceeded { offset }) if offset < 65_536)
}

fn parsed(read: &mut Read, options: ParseOptions, bytes: &str, has_ids: bool) -> String {
    let answer = ReportDescriptor::try_from_with(&bytes_of(bytes), options);
    let text = match &answer {
        Ok(descriptor) => add_descriptor(descriptor, has_ids),
        Err(ParserError::InvalidData { offset, message }) => {
            format!("refused at {offset}: {message}\n")
        }
        Err(ParserError::OutOfBounds) => "refused: out of bounds\n".into(),
        Err(ParserError::BudgetExceeded { offset }) => format!("refused at {offset}: budget\n"),
        Err(other) => panic!("{other}: {options:?} {bytes}"),
    };
    *read = answer.ok();
    text
}

/// The field with a number, with its public parts changed as a question says.
fn changed(read: &Read, words: &str) -> Field {
    let words: Vec<&str> = words.split(' ').collect();
    let (number, bits, count, minimum) = match words[..] {
        [number, bits, count, minimum] => (number, bits, count, minimum),
        _ => panic!("{words:?}"),
    };
    let number: u32 = number.parse().expect("a field's number");
    let descriptor = read.as_ref().expect("a descriptor");
    let reports =
        [descriptor.input_reports(), descriptor.output_reports(), descriptor.feature_reports()];
    let mut fields = reports.into_iter().flatten().flat_map(|report| report.fields());
    let mut field = fields.find(|field| u32::from(field.id()) == number).expect("it").clone();
    let (first, end) = bits.split_once("..").expect("bits");
    let bits = first.parse().expect("a bit")..end.parse().expect("a bit");
    let minimum = minimum.parse::<i32>().expect("a minimum").into();
    match &mut field {
        Field::Variable(field) => {
            field.bits = bits;
            field.logical_minimum = minimum;
        }
        Field::Array(field) => {
            field.bits = bits;
            field.report_count = count.parse::<usize>().expect("a count").into();
            field.logical_minimum = minimum;
        }
        Field::Constant(field) => field.bits = bits,
    }
    field
}

fn outcome(answer: Result<(), InsertError>, bytes: &[u8], before: &[u8]) -> String {
    let refusal = match answer {
        Ok(()) if bytes.is_empty() => return "-\n".into(),
        Ok(()) => {
            return bytes.iter().map(|byte| format!("{byte:02x}")).chain(["\n".into()]).collect()
        }
        Err(InsertError::OutOfBounds) => "outside\n",
        Err(InsertError::MismatchingReportId) => "another\n",
        Err(InsertError::DoesNotFit) => "doesn't fit\n",
        Err(InsertError::WrongCount) => "wrong count\n",
    };
    assert_eq!(bytes, before, "a refusal leaves the bytes");
    refusal.into()
}

/// `FIELD FIRST..END COUNT MINIMUM / NUMBER .. / BYTES`; an index stands before one number.
fn inserted(read: &Read, rest: &str, is_one: bool) -> String {
    let parts: Vec<&str> = rest.split(" / ").collect();
    let (field, numbers, bytes) = match parts[..] {
        [field, numbers, bytes] => (field, numbers, bytes),
        _ => panic!("{rest}"),
    };
    let (index, numbers) = match numbers.split_once(' ') {
        Some((index, number)) if is_one => (index.parse().expect("an index"), number),
        _ => (0, numbers),
    };
    let numbers: Vec<i64> = numbers
        .split(' ')
        .filter(|word| *word != "-")
        .map(|word| word.parse().expect("a number"))
        .collect();
    let before = bytes_of(bytes);
    let mut bytes = before.clone();
    let answer = match changed(read, field) {
        Field::Variable(field) => field.insert(&mut bytes, numbers[0]),
        Field::Array(field) if is_one => field.insert_one(&mut bytes, index, numbers[0]),
        Field::Array(field) => field.insert(&mut bytes, &numbers),
        Field::Constant(_) => panic!("{rest}"),
    };
    outcome(answer, &bytes, &before)
}

/// The answer to a question; none where it is of another kind than these.
fn answer(read: &mut Read, kind: &str, rest: &str) -> Option<String> {
    let standard = ParseOptions::default();
    if ["parse", "shape", "parse-globals", "parse-hosts"].contains(&kind)
        && is_great(&bytes_of(rest))
    {
        *read = None;
        return None;
    }
    Some(match kind {
        "parse" => parsed(read, standard, rest, true),
        "shape" => parsed(read, standard, rest, false),
        "parse-globals" => {
            parsed(read, ParseOptions { push_keeps: PushKeeps::Globals, ..standard }, rest, true)
        }
        "parse-hosts" => parsed(read, ParseOptions::as_hosts(), rest, true),
        "parse-within" => {
            let (limit, bytes) = rest.split_once(' ').unwrap_or((rest, "-"));
            let limit = limit.parse().expect("a limit");
            // With a limit this library reads no more, which the other has as another option; and
            // the greatest number is no limit.
            if limit == usize::MAX || bytes_of(bytes).len() > 65_536 {
                return None;
            }
            let limit = Some(limit);
            parsed(read, ParseOptions { limit, ..standard }, bytes, true)
        }
        "read" => add_readings(read.as_ref()?, &bytes_of(rest)),
        "insert" => inserted(read, rest, false),
        "insert-one" => inserted(read, rest, true),
        _ => return None,
    })
}

/// The questions of a file with the lines of their answers.
fn cases(text: &str) -> Vec<(&str, String)> {
    let mut cases: Vec<(&str, String)> = Vec::new();
    for line in text.lines() {
        match line.strip_prefix("  ") {
            Some(answer) => cases.last_mut().expect("a question").1 += &format!("{answer}\n"),
            None if line.is_empty() || line.starts_with('#') => {}
            None => cases.push((line, String::new())),
        }
    }
    cases
}

#[test]
fn the_answers_are_those_of_the_cases() {
    let data = env::var("HIDREPORT_CASES").map(PathBuf::from).unwrap_or_else(|_| {
        Path::new(env!("CARGO_MANIFEST_DIR")).join("../tests/hidreport_cases/data")
    });
    let files = fs::read_dir(&data).expect("the folder with the cases");
    let mut asked: BTreeMap<&str, usize> = BTreeMap::new();
    for file in files {
        let path = file.expect("a file").path();
        let text = fs::read_to_string(&path).expect("text");
        let mut read = None;
        for (question, wanted) in cases(&text) {
            let (kind, rest) = question.split_once(' ').unwrap_or((question, ""));
            if let Some(got) = answer(&mut read, kind, rest) {
                assert_eq!(got, wanted, "{}: {question}", path.display());
                let names = [
                    "parse",
                    "parse-globals",
                    "parse-hosts",
                    "parse-within",
                    "shape",
                    "read",
                    "insert",
                    "insert-one",
                ];
                let name = names.iter().find(|name| **name == kind).expect("a kind");
                *asked.entry(name).or_default() += 1;
            }
        }
    }
    println!("{asked:?}");
    assert!(asked["read"] > 20_000 && asked["shape"] > 2_000 && asked["insert"] > 900, "{asked:?}");
}

#[test]
fn with_a_limit_there_are_at_most_65536_bytes() {
    let refusal =
        |bytes: &[u8]| ReportDescriptor::try_from_with(bytes, ParseOptions::bounded()).unwrap_err();
    let longest = [vec![0xa4; 65_535], vec![0xc0]].concat();
    let message = "Too many EndCollection".into();
    assert_eq!(refusal(&longest), ParserError::InvalidData { offset: 65_535, message });
    let longer = [vec![0xa4; 65_536], vec![0xc0]].concat();
    assert_eq!(refusal(&longer), ParserError::BudgetExceeded { offset: 65_536 });
}

#[test]
fn what_was_read_may_be_shared_by_threads() {
    let x_alone = [0x05, 1, 0x09, 0x30, 0x15, 0x81, 0x25, 0x7f, 0x75, 8, 0x95, 1, 0x81, 2];
    let descriptor = ReportDescriptor::try_from(&x_alone[..]).unwrap();
    let read = || match &descriptor.input_reports()[0].fields()[0] {
        Field::Variable(field) => field.extract(&[0xff]).map(i32::from),
        _ => panic!("another field"),
    };
    let values =
        std::thread::scope(|threads| [0, 1].map(|_| threads.spawn(read)).map(|it| it.join()));
    assert!(values.into_iter().all(|value| value.unwrap() == Ok(-1)));
}
