//! The Rust crate.
use hidreport::hid::ReportDescriptorItems;

include!("parts.rs");

pub fn itemise(bytes: &[u8]) -> usize {
    match black_box(ReportDescriptorItems::try_from(black_box(bytes))) {
        Ok(items) => items.len(),
        Err(_) => 0,
    }
}
