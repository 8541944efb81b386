//! The library's entries for a format in runs, as include/groatsaddle.h offers them.

use crate::library::FlatRecord;

pub const LONGEST_RUN: usize = 32;

#[repr(C)]
#[derive(Clone, Copy, Debug, PartialEq, Eq)]
pub struct Runs {
    pub total: usize,
    pub passed: usize,
    pub kept: usize,
    pub written: usize,
    pub number: usize,
    pub over: u8,
}

#[repr(C)]
#[derive(Clone, Copy, Debug, PartialEq, Eq)]
pub struct Progress {
    pub refusal: u32,
    pub more: u8,
    pub length: usize,
}

extern "C" {
    fn gs_runs_start(
        total: usize,
        zone: *const u8,
        zone_len: usize,
        store: *const u8,
        store_len: usize,
        buffer: *const u8,
        buffer_len: usize,
    ) -> Runs;

    fn gs_runs_run(
        runs: Runs,
        bytes: *const u8,
        bytes_len: usize,
        zone: *const u8,
        zone_len: usize,
        record: FlatRecord,
        store: *mut u8,
        store_len: usize,
        buffer: *mut u8,
        buffer_len: usize,
    ) -> Runs;

    fn gs_runs_end(
        runs: Runs,
        zone: *const u8,
        zone_len: usize,
        record: FlatRecord,
        store: *const u8,
        store_len: usize,
        buffer: *mut u8,
        buffer_len: usize,
    ) -> Runs;

    fn gs_runs_answer(runs: Runs) -> Progress;
}

pub fn start(total: usize, zone: &[u8], store: &[u8], buffer: &[u8]) -> Runs {
    // SAFETY: each pointer has the length of its slice beside it.
    unsafe {
        gs_runs_start(
            total,
            zone.as_ptr(),
            zone.len(),
            store.as_ptr(),
            store.len(),
            buffer.as_ptr(),
            buffer.len(),
        )
    }
}

pub fn run(
    runs: Runs,
    bytes: &[u8],
    zone: &[u8],
    record: FlatRecord,
    store: &mut [u8],
    buffer: &mut [u8],
) -> Runs {
    // SAFETY: each pointer has the length of its slice beside it.
    unsafe {
        gs_runs_run(
            runs,
            bytes.as_ptr(),
            bytes.len(),
            zone.as_ptr(),
            zone.len(),
            record,
            store.as_mut_ptr(),
            store.len(),
            buffer.as_mut_ptr(),
            buffer.len(),
        )
    }
}

pub fn end(runs: Runs, zone: &[u8], record: FlatRecord, store: &[u8], buffer: &mut [u8]) -> Runs {
    // SAFETY: each pointer has the length of its slice beside it.
    unsafe {
        gs_runs_end(
            runs,
            zone.as_ptr(),
            zone.len(),
            record,
            store.as_ptr(),
            store.len(),
            buffer.as_mut_ptr(),
            buffer.len(),
        )
    }
}

pub fn answer(runs: Runs) -> Progress {
    // SAFETY: it takes numbers.
    unsafe { gs_runs_answer(runs) }
}
