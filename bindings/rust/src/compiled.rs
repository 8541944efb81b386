use crate::abi::{gs_compile, gs_format_stored, Answer, Record};
use crate::{Error, Time, LONGEST_STORED};

/// A format that is read once and stored, then run many times. For every time and buffer, text and error
/// are those of [`strftime`](crate::buffered::strftime) for the format.
///
/// It owns its stored form, in `ROOM` bytes. [`LONGEST_STORED`] are enough for any format; most need far
/// fewer: a format's literal bytes, 8 for each directive, 3 for each step from one to the other, and 6.
///
/// ```
/// use groatsaddle::{Compiled, Record};
///
/// let compiled: Compiled<64> = Compiled::new(b"%F %T")?;
/// let mut line = [0; 64];
/// for count in [1_735_574_709, 1_735_574_710] {
///     let sale = Record::from_count(count, 3600, 0, false)?;
///     let text = compiled.strftime(&sale, &mut line)?;
///     assert!(text.starts_with(b"2024-12-30 17:05:"));
/// }
/// # Ok::<(), groatsaddle::Error>(())
/// ```
///
/// The stored form can be kept, and be had back from its bytes and the length of its format:
///
/// ```
/// # use groatsaddle::{Compiled, Error, Record};
/// # let compiled: Compiled<64> = Compiled::new(b"%F %T")?;
/// let kept = compiled.stored();
/// let again: Compiled<64> = Compiled::from_stored(kept, 5)?;
/// assert_eq!(again.stored(), kept);
///
/// let cut = Compiled::<64>::from_stored(&kept[1..], 5);
/// assert_eq!(cut.err(), Some(Error::BadStored));
/// # Ok::<(), groatsaddle::Error>(())
/// ```
#[derive(Clone)]
pub struct Compiled<const ROOM: usize = LONGEST_STORED> {
    bytes: [u8; ROOM],
    length: usize,
    format_length: usize,
}

impl<const ROOM: usize> Compiled<ROOM> {
    /// Compiles `format`.
    ///
    /// # Errors
    ///
    /// In this order: [`Error::InputTooLong`], [`Error::InvalidFormatString`], and [`Error::WriteZero`] if
    /// the stored form has more than `ROOM` bytes.
    pub fn new(format: &[u8]) -> Result<Self, Error> {
        let mut bytes = [0; ROOM];
        // SAFETY: each pointer has the length of its slice beside it.
        let answer = unsafe {
            gs_compile(
                format.as_ptr(),
                format.len(),
                bytes.as_mut_ptr(),
                bytes.len(),
            )
        };
        Ok(Compiled {
            length: answer.length()?,
            bytes,
            format_length: format.len(),
        })
    }

    /// Takes a stored form back, with the length of the format that was compiled.
    ///
    /// # Errors
    ///
    /// In this order: [`Error::InputTooLong`] if `format_length` is above
    /// [`LONGEST_FORMAT`](crate::LONGEST_FORMAT); [`Error::BadStored`] if the bytes are no stored form;
    /// [`Error::WriteZero`] if they are more than `ROOM`.
    pub fn from_stored(stored: &[u8], format_length: usize) -> Result<Self, Error> {
        // What the form writes doesn't matter: these two come before any text.
        let answer = run(stored, format_length, b"", NO_TIME, &mut []).length();
        if let Err(error @ (Error::InputTooLong | Error::BadStored)) = answer {
            return Err(error);
        }
        let mut bytes = [0; ROOM];
        let place = bytes.get_mut(..stored.len()).ok_or(Error::WriteZero)?;
        place.copy_from_slice(stored);
        Ok(Compiled {
            bytes,
            length: stored.len(),
            format_length,
        })
    }

    /// Formats `time` as the format says, at the front of `buf`, and returns the part that is written.
    ///
    /// An error changes no byte of `buf`.
    ///
    /// # Errors
    ///
    /// [`Error::InputTooLong`] before all others; then the first thing that fails, from left to right,
    /// names the [`Error`].
    pub fn strftime<'a>(&self, time: &impl Time, buf: &'a mut [u8]) -> Result<&'a mut [u8], Error> {
        let zone = time.time_zone().as_bytes();
        let answer = run(
            self.stored(),
            self.format_length,
            zone,
            Record::of(time),
            buf,
        );
        Ok(&mut buf[..answer.length()?])
    }

    /// The stored form.
    #[must_use]
    pub fn stored(&self) -> &[u8] {
        &self.bytes[..self.length]
    }

    /// The length of the format that was compiled.
    #[must_use]
    pub fn format_length(&self) -> usize {
        self.format_length
    }
}

const NO_TIME: Record = Record {
    year: 0,
    month: 0,
    day: 0,
    hour: 0,
    minute: 0,
    second: 0,
    nanoseconds: 0,
    day_of_week: 0,
    day_of_year: 0,
    to_int: 0,
    is_utc: 0,
    utc_offset: 0,
};

fn run(stored: &[u8], format_length: usize, zone: &[u8], record: Record, buf: &mut [u8]) -> Answer {
    // SAFETY: each pointer has the length of its slice beside it, and `buf` is borrowed alone.
    unsafe {
        gs_format_stored(
            stored.as_ptr(),
            stored.len(),
            format_length,
            zone.as_ptr(),
            zone.len(),
            record,
            buf.as_mut_ptr(),
            buf.len(),
        )
    }
}
