//! The library's entries for a compiled format, as include/groatsaddle.h offers them.

use crate::library::{Answer, FlatRecord};

extern "C" {
    fn gs_compile(
        format: *const u8,
        format_len: usize,
        stored: *mut u8,
        stored_len: usize,
    ) -> Answer;

    fn gs_format_stored(
        stored: *const u8,
        stored_len: usize,
        format_len: usize,
        zone: *const u8,
        zone_len: usize,
        record: FlatRecord,
        buffer: *mut u8,
        buffer_len: usize,
    ) -> Answer;
}

pub fn compile(format: &[u8], stored: &mut [u8]) -> Answer {
    // SAFETY: each pointer has the length of its slice beside it.
    unsafe {
        gs_compile(
            format.as_ptr(),
            format.len(),
            stored.as_mut_ptr(),
            stored.len(),
        )
    }
}

pub fn format_stored(
    stored: &[u8],
    format_length: usize,
    zone: &[u8],
    record: FlatRecord,
    buffer: &mut [u8],
) -> Answer {
    // SAFETY: each pointer has the length of its slice beside it.
    unsafe {
        gs_format_stored(
            stored.as_ptr(),
            stored.len(),
            format_length,
            zone.as_ptr(),
            zone.len(),
            record,
            buffer.as_mut_ptr(),
            buffer.len(),
        )
    }
}
