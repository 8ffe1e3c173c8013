//! Chromium's parser, by the static library `chromium_hid` (../../chromium).

/// How many fields there are and bits in them, and the sum of the variable fields' usages.
#[repr(C)]
pub struct ChromiumFacts {
    pub fields: u64,
    pub bits: u64,
    pub usages: u64,
}

// As ../../chromium_stubs/face.cc has them.
#[link(name = "chromium_hid", kind = "static")]
#[link(name = "stdc++")]
unsafe extern "C" {
    fn chromium_parse(bytes: *const u8, length: usize) -> usize;
    fn chromium_details(bytes: *const u8, length: usize) -> usize;
    fn chromium_facts(bytes: *const u8, length: usize) -> ChromiumFacts;
}

pub fn parse(bytes: &[u8]) -> usize {
    // SAFETY: pointer and length are those of one slice, here and below.
    unsafe { chromium_parse(bytes.as_ptr(), bytes.len()) }
}

/// Parses, and makes what Chromium hands out of a descriptor.
pub fn details(bytes: &[u8]) -> usize {
    unsafe { chromium_details(bytes.as_ptr(), bytes.len()) }
}

pub fn facts(bytes: &[u8]) -> ChromiumFacts {
    unsafe { chromium_facts(bytes.as_ptr(), bytes.len()) }
}
