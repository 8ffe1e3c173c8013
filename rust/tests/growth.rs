//! A descriptor of 64 KB takes about 64 times as long as one of 1 KB of the same shape, whatever is asked
//! of it: nothing grows faster than the bytes to the power of 1.3.
use hidreport::{Field, FieldAttributes, ParseOptions, Report, ReportDescriptor};
use std::time::{Duration, Instant};

/// What stands in front, and what is repeated.
const SHAPES: [(&[u8], &[u8]); 6] = [
    (b"\x05\x01\x75\x08\x95\x01", b"\xa1\x00\x09\x30\x81\x02\xc0"),
    (b"\x05\x01\x75\x08\x95\x01", b"\x09\x30\x09\x38\xa1\x00\x09\x30\x81\x02\xc0"),
    (b"\x05\x01\x75\x08\x95\x01\x25\x01", b"\x09\x30\x81\x00"),
    (b"\x05\x01\x75\x08\x95\x01\x25\x01", b"\x09\x30\x09\x38\x81\x00"),
    (b"\x75\x08\x95\x01", b"\x81\x01"),
    (b"\x05\x01\x75\x08\x95\x01", b"\x85\x01\x09\x30\x81\x02\x85\x02\x09\x30\x91\x02"),
];

fn descriptor(shape: (&[u8], &[u8]), most: usize) -> Vec<u8> {
    let mut bytes = shape.0.to_vec();
    while bytes.len() + shape.1.len() <= most {
        bytes.extend_from_slice(shape.1);
    }
    bytes
}

/// All that a descriptor has: how many numbers, so that none is left out.
fn look_at_all(bytes: &[u8]) -> usize {
    let read = ReportDescriptor::try_from_with(bytes, ParseOptions::default()).unwrap();
    let mut seen = 0;
    for report in [read.input_reports(), read.output_reports(), read.feature_reports()].concat() {
        for field in report.fields() {
            seen += field.usages().len() + field.bits().end - field.bits().start;
            seen += field.collections().iter().map(|around| around.usages().len()).sum::<usize>();
            if let Field::Variable(field) = field {
                seen += usize::from(field.is_relative());
            }
        }
        seen += report.blank().unwrap().len();
    }
    assert!(read == read.clone());
    seen
}

/// The least time of a few looks.
fn time_of(bytes: &[u8]) -> Duration {
    let looks = 1 + 65_536 / bytes.len();
    (0..5)
        .map(|_| {
            let begun = Instant::now();
            for _ in 0..looks {
                assert!(look_at_all(bytes) > 0);
            }
            begun.elapsed() / looks as u32
        })
        .min()
        .unwrap()
}

#[test]
fn nothing_grows_faster_than_its_bytes() {
    for shape in SHAPES {
        let (small, large) = (descriptor(shape, 1_024), descriptor(shape, 65_536));
        let ratio = time_of(&large).as_secs_f64() / time_of(&small).as_secs_f64();
        let growth = ratio.ln() / (large.len() as f64 / small.len() as f64).ln();
        assert!(growth < 1.3, "{:02x?}: as bytes to the power of {growth:.2}", shape.1);
    }
}
