//! The plain formatter and the original behind the C ABI, as an archive: what each links is counted.

#![no_std]

#[path = "../compare/library.rs"]
#[allow(dead_code)]
mod library;
mod plain;
#[path = "../compare/record.rs"]
mod record;

use core::slice;
use library::FlatRecord;

#[panic_handler]
fn panic(_: &core::panic::PanicInfo) -> ! {
    loop {}
}

/// # Safety
///
/// As for `gs_format`.
#[no_mangle]
pub unsafe extern "C" fn plain_format(
    format: *const u8,
    format_len: usize,
    zone: *const u8,
    zone_len: usize,
    record: FlatRecord,
    buffer: *mut u8,
    buffer_len: usize,
) -> i64 {
    let format = slice::from_raw_parts(format, format_len);
    let zone = slice::from_raw_parts(zone, zone_len);
    let buffer = slice::from_raw_parts_mut(buffer, buffer_len);
    number(plain::format(format, zone, record, buffer))
}

/// # Safety
///
/// As for `gs_format`.
#[no_mangle]
pub unsafe extern "C" fn original_format(
    format: *const u8,
    format_len: usize,
    zone: *const u8,
    zone_len: usize,
    record: FlatRecord,
    buffer: *mut u8,
    buffer_len: usize,
) -> i64 {
    let format = slice::from_raw_parts(format, format_len);
    let zone = slice::from_raw_parts(zone, zone_len);
    let buffer = slice::from_raw_parts_mut(buffer, buffer_len);
    number(record::strftime(&record.with_zone(zone), format, buffer))
}

fn number(answer: Result<usize, u8>) -> i64 {
    answer.map_or_else(|refusal| -i64::from(refusal), |length| length as i64)
}
