//! What both sides are asked with and answer.

/// How many reports and fields a descriptor announces, how many bits all fields have together, the
/// sum of the variable fields' usages, how many bytes a frame has, and a mix of all parts.
#[repr(C)]
#[derive(Clone, Copy, Debug, Default, PartialEq)]
pub struct Facts {
    pub reports: u64,
    pub fields: u64,
    pub bits: u64,
    pub usages: u64,
    pub frame_size: u64,
    pub mix: u64,
}

impl Facts {
    pub fn add(&mut self, number: u64) {
        self.mix = mixed(self.mix, number);
    }
}

/// A mix of what was mixed before and one more number.
pub fn mixed(mix: u64, number: u64) -> u64 {
    mix.rotate_left(5) ^ number
}

/// Frames of one size, one behind the other. A frame has the bytes of one report for each that the
/// descriptor announces: those of the inputs, then of the outputs, then of the features.
pub struct Frames {
    pub bytes: Vec<u8>,
    pub size: usize,
}

impl Frames {
    pub const COUNT: usize = 8;
}
