use crate::abi::gs_size;
use crate::Error;

/// Gives the length of the least buffer that serves `format` for every record whose zone name has at
/// most `longest_zone` bytes.
///
/// ```
/// assert_eq!(groatsaddle::size(b"%F %T %Z", 4), Ok(31));
/// ```
///
/// # Errors
///
/// In this order: [`Error::InputTooLong`], [`Error::InvalidFormatString`], and [`Error::NoBuffer`] if
/// some record with all fields in range has its text in no buffer of 65,536 bytes.
pub fn size(format: &[u8], longest_zone: usize) -> Result<usize, Error> {
    // SAFETY: the pointer has the length of its slice beside it.
    let answer = unsafe { gs_size(format.as_ptr(), format.len(), longest_zone) };
    answer.length()
}
