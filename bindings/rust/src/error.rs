use core::fmt;

/// Why there is no text, no record or no count. The original's names, and five that are added.
#[derive(Debug, Clone, Copy, PartialEq, Eq)]
#[non_exhaustive]
pub enum Error {
    /// A directive reads a field that is out of its range, or a zone name with a byte below 32 or
    /// above 126; a count comes with too many nanoseconds, or a record has no count.
    InvalidTime,
    /// The format ends inside a directive.
    InvalidFormatString,
    /// Padding would take the text past 524,288 bytes for each byte of the format.
    FormattedStringTooLarge,
    /// The buffer is too short for the text, the store for the format, or the place for the stored form.
    WriteZero,
    /// The format, a run of it, the zone name or the buffer is longer than the library takes. Not the
    /// original's.
    InputTooLong,
    /// No buffer that the library takes is long enough for every record. Not the original's; only
    /// sizing gives it.
    NoBuffer,
    /// Local time or its year is beyond what a record holds. Not the original's; only a record from a
    /// count gives it.
    OutOfRange,
    /// The runs of a format bring more bytes than were said, or fewer. Not the original's; only
    /// [`Runs`](crate::Runs) gives it.
    LengthMismatch,
    /// The bytes are no stored form. Not the original's; only
    /// [`Compiled::from_stored`](crate::Compiled::from_stored) gives it.
    BadStored,
}

impl Error {
    pub(crate) fn numbered(refusal: u32) -> Self {
        match refusal {
            1 => Error::InvalidTime,
            2 => Error::InvalidFormatString,
            3 => Error::FormattedStringTooLarge,
            4 => Error::WriteZero,
            5 => Error::InputTooLong,
            6 => Error::NoBuffer,
            7 => Error::OutOfRange,
            10 => Error::LengthMismatch,
            11 => Error::BadStored,
            other => unreachable!("the library has no refusal {other}"),
        }
    }
}

impl fmt::Display for Error {
    fn fmt(&self, f: &mut fmt::Formatter<'_>) -> fmt::Result {
        f.write_str(match self {
            Error::InvalidTime => "invalid time",
            Error::InvalidFormatString => "invalid format string",
            Error::FormattedStringTooLarge => "formatted string too large",
            Error::WriteZero => "failed to write the whole buffer",
            Error::InputTooLong => "input too long",
            Error::NoBuffer => "no buffer is long enough",
            Error::OutOfRange => "out of range",
            Error::LengthMismatch => "length mismatch",
            Error::BadStored => "no stored form",
        })
    }
}

impl core::error::Error for Error {}
