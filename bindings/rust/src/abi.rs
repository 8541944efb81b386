//! include/groatsaddle.h in Rust.

use crate::{Error, Time};

#[repr(C)]
#[derive(Clone, Copy)]
pub(crate) struct Record {
    pub year: i32,
    pub month: u8,
    pub day: u8,
    pub hour: u8,
    pub minute: u8,
    pub second: u8,
    pub nanoseconds: u32,
    pub day_of_week: u8,
    pub day_of_year: u16,
    pub to_int: i64,
    pub is_utc: u8,
    pub utc_offset: i32,
}

impl Record {
    pub(crate) fn of(time: &impl Time) -> Self {
        Record {
            year: time.year(),
            month: time.month(),
            day: time.day(),
            hour: time.hour(),
            minute: time.minute(),
            second: time.second(),
            nanoseconds: time.nanoseconds(),
            day_of_week: time.day_of_week(),
            day_of_year: time.day_of_year(),
            to_int: time.to_int(),
            is_utc: u8::from(time.is_utc()),
            utc_offset: time.utc_offset(),
        }
    }
}

#[repr(C)]
#[derive(Clone, Copy)]
pub(crate) struct Answer {
    pub refusal: u32,
    pub length: u32,
}

impl Answer {
    pub(crate) fn length(self) -> Result<usize, Error> {
        match self.refusal {
            0 => Ok(self.length as usize),
            refusal => Err(Error::numbered(refusal)),
        }
    }
}

#[repr(C)]
#[derive(Clone, Copy)]
pub(crate) struct Dated {
    pub refusal: u32,
    pub record: Record,
}

#[repr(C)]
#[derive(Clone, Copy)]
pub(crate) struct Counted {
    pub refusal: u32,
    pub count: i64,
}

#[repr(C)]
#[derive(Clone, Copy)]
pub(crate) struct Runs {
    pub total: usize,
    pub passed: usize,
    pub kept: usize,
    pub written: usize,
    pub number: usize,
    pub over: u8,
}

#[repr(C)]
#[derive(Clone, Copy)]
pub(crate) struct Progress {
    pub refusal: u32,
    pub more: u8,
    pub length: usize,
}

extern "C" {
    pub(crate) fn gs_format(
        format: *const u8,
        format_len: usize,
        zone: *const u8,
        zone_len: usize,
        record: Record,
        buffer: *mut u8,
        buffer_len: usize,
    ) -> Answer;

    pub(crate) fn gs_size(format: *const u8, format_len: usize, longest_zone: usize) -> Answer;

    pub(crate) fn gs_record_from_count(
        count: i64,
        utc_offset: i32,
        nanoseconds: u32,
        is_utc: u8,
    ) -> Dated;

    pub(crate) fn gs_count_from_record(record: Record) -> Counted;

    pub(crate) fn gs_runs_start(
        total: usize,
        zone: *const u8,
        zone_len: usize,
        store: *const u8,
        store_len: usize,
        buffer: *const u8,
        buffer_len: usize,
    ) -> Runs;

    pub(crate) fn gs_runs_run(
        runs: Runs,
        bytes: *const u8,
        bytes_len: usize,
        zone: *const u8,
        zone_len: usize,
        record: Record,
        store: *mut u8,
        store_len: usize,
        buffer: *mut u8,
        buffer_len: usize,
    ) -> Runs;

    pub(crate) fn gs_runs_end(
        runs: Runs,
        zone: *const u8,
        zone_len: usize,
        record: Record,
        store: *const u8,
        store_len: usize,
        buffer: *mut u8,
        buffer_len: usize,
    ) -> Runs;

    pub(crate) fn gs_runs_answer(runs: Runs) -> Progress;

    pub(crate) fn gs_compile(
        format: *const u8,
        format_len: usize,
        stored: *mut u8,
        stored_len: usize,
    ) -> Answer;

    pub(crate) fn gs_format_stored(
        stored: *const u8,
        stored_len: usize,
        format_len: usize,
        zone: *const u8,
        zone_len: usize,
        record: Record,
        buffer: *mut u8,
        buffer_len: usize,
    ) -> Answer;
}
