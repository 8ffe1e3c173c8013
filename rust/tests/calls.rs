//! What the cases of the library don't ask of this package: usages of values and their ranges, what
//! values stand for, blank reports, repairs and options. The answers are worked by hand by the
//! standard's Sections 5.6, 5.8, 6.2.2.7 and 6.2.2.8.
use hidreport::{
    repair, ArrayField, Change, Direction, Field, Fraction, ParseOptions, PushKeeps, Reason,
    RepairOptions, Report, ReportDescriptor, Usage, UsagesBy, VariableField,
};

/// Keys 4 to 7, for which the values 1 to 4 stand, three of them in a byte each; a byte of padding.
const KEYS: &[u8] =
    &[0x05, 7, 0x19, 4, 0x29, 7, 0x15, 1, 0x25, 4, 0x75, 8, 0x95, 3, 0x81, 0, 0x95, 1, 0x81, 1];
/// A byte in each of two reports.
const WITH_IDS: &[u8] =
    &[0x05, 1, 0x75, 8, 0x95, 1, 0x85, 5, 0x09, 0x30, 0x81, 2, 0x85, 6, 0x09, 0x31, 0x81, 2];
/// X, of whose values -127 to 127 stand for 0 to 254.
const MEASURED: &[u8] = &[
    0x05, 1, 0x09, 0x30, 0x15, 0x81, 0x25, 0x7f, 0x35, 0, 0x46, 0xfe, 0, 0x75, 8, 0x95, 1, 0x81, 2,
];

fn read(bytes: &[u8]) -> ReportDescriptor {
    ReportDescriptor::try_from(bytes).unwrap()
}

fn first(bytes: &[u8]) -> Field {
    read(bytes).input_reports()[0].fields()[0].clone()
}

fn array(bytes: &[u8]) -> ArrayField {
    match first(bytes) {
        Field::Array(field) => field,
        other => panic!("{:?}", other),
    }
}

fn variable(bytes: &[u8]) -> VariableField {
    match first(bytes) {
        Field::Variable(field) => field,
        other => panic!("{:?}", other),
    }
}

#[test]
fn a_value_of_an_array_stands_for_a_usage() {
    let keys = array(KEYS);
    let values = keys.extract(&[1, 4, 0, 9]).unwrap();
    let usages: Vec<_> = values.into_iter().map(|value| keys.usage_of(value)).collect();
    assert_eq!(usages, [Some(Usage::from(0x0007_0004)), Some(Usage::from(0x0007_0007)), None]);
    assert_eq!(keys.value_of(Usage::from(0x0007_0004)), Some(1));
    assert_eq!(keys.value_of(Usage::from(0x0007_0007)), Some(4));
    assert_eq!(keys.value_of(Usage::from(0x0007_0008)), None);
    assert_eq!(keys.null_value(), Some(0));
}

#[test]
fn a_range_has_its_bounds_and_its_page() {
    let range = array(KEYS).usage_range().unwrap();
    let (last, behind) = (Usage::from(0x0007_0007), Usage::from(0x0007_0008));
    assert_eq!(range.lookup_usage(&last), Some(&last));
    assert_eq!(range.lookup_usage(&behind), None);
    assert_eq!(range.lookup_usage(&Usage::from(0x0009_0005)), None);
    assert_eq!(range.lookup_id(4.into()), Some(Usage::from(0x0007_0004)));
    assert_eq!(range.lookup_id(7.into()), Some(last));
    assert_eq!(range.lookup_id(3.into()), None);
}

#[test]
fn padding_has_no_values() {
    let keys = read(KEYS);
    let fields = keys.input_reports()[0].fields();
    assert_eq!(fields[1].values(&[1, 4, 0, 9]), Ok(Vec::new()));
    let values = fields[0].values(&[1, 4, 0, 9]).unwrap();
    assert_eq!(values.into_iter().map(i64::from).collect::<Vec<_>>(), [1, 4, 0]);
}

#[test]
fn an_integer_of_fewer_bits_has_the_lowest() {
    let word = variable(&[0x05, 1, 0x09, 0x30, 0x27, 0xff, 0xff, 0, 0, 0x75, 16, 0x95, 1, 0x81, 2]);
    let value = word.extract(&[0xc8, 0xff]).unwrap();
    assert_eq!((i64::from(value), u16::from(value)), (0xffc8, 0xffc8));
    assert_eq!((u8::from(value), i8::from(value), i16::from(value)), (0xc8, -56, -56));
}

#[test]
fn values_stand_for_physical_ones() {
    let x = variable(MEASURED);
    let is = |value: Option<Fraction>, number: i64| {
        let fraction = value.unwrap();
        assert_eq!(fraction.numerator, number * fraction.denominator);
    };
    is(x.physical_value(23), 150);
    is(x.physical_value(127), 254);
    is(x.normalized(127), 1);
    is(x.normalized(-127), -1);
}

#[test]
fn reports_are_found_by_their_ids() {
    let both = read(WITH_IDS);
    let second = both.report(Direction::Input, Some(6.into())).unwrap();
    assert_eq!(second.fields()[0].usages(), [Usage::from(0x0001_0031)]);
    assert_eq!(both.report(Direction::Input, None), None);
    assert_eq!(both.report(Direction::Output, Some(6.into())), None);
    assert_eq!(second.blank(), Ok(vec![6, 0]));
    assert_eq!(read(MEASURED).input_reports()[0].blank(), Ok(vec![0]));
}

/// An item of one, two and four bytes of data, of each direction (Section 6.2.2.4); without data an
/// Output or a Feature is refused as an Input is.
#[test]
fn a_direction_has_its_reports_however_long_its_items_are() {
    const FRONT: [u8; 8] = [0x05, 1, 0x75, 8, 0x95, 1, 0x09, 0x30];
    let reports = |item: &[u8]| ReportDescriptor::try_from(&[&FRONT, item].concat());
    for (direction, header) in
        [(Direction::Input, 0x80), (Direction::Output, 0x90), (Direction::Feature, 0xb0)]
    {
        let items: [&[u8]; 3] = [&[header | 1, 2], &[header | 2, 2, 0], &[header | 3, 2, 0, 0, 0]];
        for item in items {
            let read = reports(item).unwrap();
            for other in [Direction::Input, Direction::Output, Direction::Feature] {
                assert_eq!(read.reports(other).len(), usize::from(other == direction));
            }
        }
        assert!(reports(&[header]).is_err());
    }
}

#[test]
fn a_repair_tells_what_it_changed() {
    // An Input of a byte without a usage, with flags in four bytes: it becomes padding.
    let unused = [0x75, 8, 0x95, 1, 0x83, 0, 0, 0, 1];
    let repaired = repair(&unused, RepairOptions::default()).unwrap();
    assert_eq!(repaired.bytes, [0x75, 8, 0x95, 1, 0x83, 1, 0, 0, 1]);
    let change = Change { offset: 4, stood: 5, stands: 5, reason: Reason::NoUsage.into() };
    assert_eq!(repaired.changes, [change]);
    // By hosts a lone maximum closes a range from 0, so these bits have usages, by Linux, too.
    let lone = [0x05, 1, 0x29, 5, 0x75, 1, 0x95, 5, 0x81, 2];
    for parse in [ParseOptions::as_hosts(), ParseOptions::as_linux()] {
        let repaired = repair(&lone, RepairOptions { parse, ..RepairOptions::default() }).unwrap();
        assert_eq!((repaired.bytes, repaired.changes), (lone.to_vec(), Vec::new()));
    }
    let parse = ParseOptions::default();
    let repaired = repair(&lone, RepairOptions { parse, ..RepairOptions::default() }).unwrap();
    assert_eq!(repaired.bytes, [0x05, 1, 0x29, 5, 0x75, 1, 0x95, 5, 0x81, 3]);
}

#[test]
fn options_are_those_that_they_say() {
    let (push_keeps, usages) = (PushKeeps::All, UsagesBy::Standard);
    let bounded = ParseOptions { push_keeps, usages, limit: Some(65_536) };
    assert_eq!(ParseOptions::bounded(), bounded);
    assert_eq!(ParseOptions::default(), ParseOptions { limit: None, ..bounded });
    // By Linux's reading a Push keeps global items alone, whatever is said.
    let usage_behind_a_push = [0x05, 1, 0xa4, 0x09, 0x30, 0xb4, 0x75, 8, 0x95, 1, 0x81, 2];
    let all = ParseOptions { push_keeps, usages: UsagesBy::Linux, limit: None };
    let by_linux = ReportDescriptor::try_from_with(&usage_behind_a_push, all).unwrap();
    assert_eq!(by_linux.input_reports()[0].fields()[0].usages(), [Usage::from(0x0001_0030)]);
}
