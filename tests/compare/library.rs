//! The library, as include/groatsaddle.h offers it.

use crate::record::Record;
use core::str;

pub const LONGEST_FORMAT: usize = 4096;
pub const LONGEST_ZONE: usize = 64;
pub const LONGEST_BUFFER: usize = 65536;

#[repr(C)]
#[derive(Clone, Copy)]
pub struct FlatRecord {
    pub year: i32,
    pub month: u8,
    pub day: u8,
    pub hour: u8,
    pub minute: u8,
    pub second: u8,
    pub nanoseconds: u32,
    pub day_of_week: u8,
    pub day_of_year: u16,
    pub to_int: i64,
    pub is_utc: u8,
    pub utc_offset: i32,
}

#[repr(C)]
#[derive(Clone, Copy)]
pub struct Answer {
    pub refusal: u32,
    pub length: u32,
}

extern "C" {
    fn gs_format(
        format: *const u8,
        format_len: usize,
        zone: *const u8,
        zone_len: usize,
        record: FlatRecord,
        buffer: *mut u8,
        buffer_len: usize,
    ) -> Answer;
}

pub fn format(format: &[u8], zone: &[u8], record: FlatRecord, buffer: &mut [u8]) -> Answer {
    // SAFETY: each pointer has the length of its slice beside it.
    unsafe {
        gs_format(
            format.as_ptr(),
            format.len(),
            zone.as_ptr(),
            zone.len(),
            record,
            buffer.as_mut_ptr(),
            buffer.len(),
        )
    }
}

impl FlatRecord {
    /// The same as a time of the original. A zone name that isn't UTF-8 can't be lent to it:
    /// it has the answer of any name with a byte from 128 on.
    pub fn with_zone<'a>(&self, zone: &'a [u8]) -> Record<'a> {
        Record {
            year: self.year,
            month: self.month,
            day: self.day,
            hour: self.hour,
            minute: self.minute,
            second: self.second,
            nanoseconds: self.nanoseconds,
            day_of_week: self.day_of_week,
            day_of_year: self.day_of_year,
            to_int: self.to_int,
            is_utc: self.is_utc != 0,
            utc_offset: self.utc_offset,
            zone: str::from_utf8(zone).unwrap_or("é"),
        }
    }
}
