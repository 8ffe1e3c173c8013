//! This library, by the static library `bench`.
use crate::facts::{Facts, Frames};

// As ../../ours/lib.source has them: a slice is a pointer and a length, an allocator nothing.
#[link(name = "bench", kind = "static")]
#[link(name = "libc_c", kind = "static")]
unsafe extern "C" {
    fn bench_itemise(bytes: *const u8, length: usize) -> usize;
    fn bench_parse(bytes: *const u8, length: usize) -> usize;
    fn bench_outline(bytes: *const u8, length: usize) -> usize;
    fn bench_rebuild(bytes: *const u8, length: usize) -> usize;
    fn bench_facts(bytes: *const u8, length: usize) -> Facts;
    fn bench_outline_facts(bytes: *const u8, length: usize) -> Facts;
    fn bench_read(
        bytes: *const u8,
        length: usize,
        frames: *const u8,
        frames_length: usize,
        frame_size: usize,
        rounds: usize,
    ) -> u64;
    fn bench_read_by_readers(
        bytes: *const u8,
        length: usize,
        frames: *const u8,
        frames_length: usize,
        frame_size: usize,
        values: *mut i64,
        values_length: usize,
        rounds: usize,
    ) -> u64;
    fn bench_read_report(
        bytes: *const u8,
        length: usize,
        place: usize,
        frames: *const u8,
        frames_length: usize,
        frame_size: usize,
        rounds: usize,
    ) -> u64;
    fn bench_read_report_by_reader(
        bytes: *const u8,
        length: usize,
        place: usize,
        frames: *const u8,
        frames_length: usize,
        frame_size: usize,
        values: *mut i64,
        values_length: usize,
        rounds: usize,
    ) -> u64;
    fn bench_write(
        bytes: *const u8,
        length: usize,
        frame: *mut u8,
        frame_length: usize,
        rounds: usize,
    ) -> u64;
}

pub fn itemise(bytes: &[u8]) -> usize {
    // SAFETY: pointer and length are those of one slice, here and below.
    unsafe { bench_itemise(bytes.as_ptr(), bytes.len()) }
}

pub fn parse(bytes: &[u8]) -> usize {
    unsafe { bench_parse(bytes.as_ptr(), bytes.len()) }
}

pub fn outline(bytes: &[u8]) -> usize {
    unsafe { bench_outline(bytes.as_ptr(), bytes.len()) }
}

pub fn rebuild(bytes: &[u8]) -> usize {
    unsafe { bench_rebuild(bytes.as_ptr(), bytes.len()) }
}

pub fn facts(bytes: &[u8]) -> Facts {
    unsafe { bench_facts(bytes.as_ptr(), bytes.len()) }
}

pub fn outline_facts(bytes: &[u8]) -> Facts {
    unsafe { bench_outline_facts(bytes.as_ptr(), bytes.len()) }
}

pub fn read(bytes: &[u8], frames: &Frames, rounds: usize) -> u64 {
    unsafe {
        bench_read(
            bytes.as_ptr(),
            bytes.len(),
            frames.bytes.as_ptr(),
            frames.bytes.len(),
            frames.size,
            rounds,
        )
    }
}

/// The same as `read`, by a reader of each report. No report has more values than bits.
pub fn read_by_readers(bytes: &[u8], frames: &Frames, rounds: usize) -> u64 {
    let mut values = vec![0; frames.size * 8];
    unsafe {
        bench_read_by_readers(
            bytes.as_ptr(),
            bytes.len(),
            frames.bytes.as_ptr(),
            frames.bytes.len(),
            frames.size,
            values.as_mut_ptr(),
            values.len(),
            rounds,
        )
    }
}

/// The same as `read` of one report, by its place in a frame, of frames with its bytes alone.
pub fn read_report(bytes: &[u8], place: usize, frames: &Frames, rounds: usize) -> u64 {
    unsafe {
        bench_read_report(
            bytes.as_ptr(),
            bytes.len(),
            place,
            frames.bytes.as_ptr(),
            frames.bytes.len(),
            frames.size,
            rounds,
        )
    }
}

/// The same by a reader.
pub fn read_report_by_reader(bytes: &[u8], place: usize, frames: &Frames, rounds: usize) -> u64 {
    let mut values = vec![0; frames.size * 8];
    unsafe {
        bench_read_report_by_reader(
            bytes.as_ptr(),
            bytes.len(),
            place,
            frames.bytes.as_ptr(),
            frames.bytes.len(),
            frames.size,
            values.as_mut_ptr(),
            values.len(),
            rounds,
        )
    }
}

/// Parses, writes all fields of the first frame so many times, and answers how many were written.
pub fn write(bytes: &[u8], frames: &Frames, rounds: usize) -> u64 {
    let mut frame = frames.bytes[..frames.size].to_vec();
    unsafe {
        bench_write(
            bytes.as_ptr(),
            bytes.len(),
            frame.as_mut_ptr(),
            frame.len(),
            rounds,
        )
    }
}
