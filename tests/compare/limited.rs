//! The judge with a size limit by the length that is passed to it, which limits only pads.

use crate::record::Record;
use std::sync::atomic::Ordering;

lend_to!(strftime_limited);

pub fn strftime_by(
    length: usize,
    record: &Record,
    format: &[u8],
    buffer: &mut [u8],
) -> Result<usize, u8> {
    strftime_limited::PASSED.store(length, Ordering::Relaxed);
    strftime(record, format, buffer)
}
