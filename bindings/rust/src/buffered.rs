//! `strftime` with a format of any bytes, into a byte slice.

use crate::abi::{gs_format, Record};
use crate::{Error, Time};

/// Formats `time` as `format` says, at the front of `buf`, and returns the part that is written.
///
/// An error changes no byte of `buf`.
///
/// # Errors
///
/// The first thing that fails, from left to right, names the [`Error`]; [`Error::InputTooLong`]
/// comes before all others.
pub fn strftime<'a>(
    time: &impl Time,
    format: &[u8],
    buf: &'a mut [u8],
) -> Result<&'a mut [u8], Error> {
    let zone = time.time_zone().as_bytes();
    let record = Record::of(time);
    // SAFETY: each pointer has the length of its slice beside it, and `buf` is borrowed alone.
    let answer = unsafe {
        gs_format(
            format.as_ptr(),
            format.len(),
            zone.as_ptr(),
            zone.len(),
            record,
            buf.as_mut_ptr(),
            buf.len(),
        )
    };
    Ok(&mut buf[..answer.length()?])
}
