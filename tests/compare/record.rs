//! The flat record as a time of the original, and the original's answer as a number.

#[derive(Clone, Copy)]
pub struct Record<'a> {
    pub year: i32,
    pub month: u8,
    pub day: u8,
    pub hour: u8,
    pub minute: u8,
    pub second: u8,
    pub nanoseconds: u32,
    pub day_of_week: u8,
    pub day_of_year: u16,
    pub to_int: i64,
    pub is_utc: bool,
    pub utc_offset: i32,
    pub zone: &'a str,
}

/// Lends the record to a version of the original.
macro_rules! lend_to {
    ($version:ident) => {
        impl $version::Time for Record<'_> {
            fn year(&self) -> i32 {
                self.year
            }
            fn month(&self) -> u8 {
                self.month
            }
            fn day(&self) -> u8 {
                self.day
            }
            fn hour(&self) -> u8 {
                self.hour
            }
            fn minute(&self) -> u8 {
                self.minute
            }
            fn second(&self) -> u8 {
                self.second
            }
            fn nanoseconds(&self) -> u32 {
                self.nanoseconds
            }
            fn day_of_week(&self) -> u8 {
                self.day_of_week
            }
            fn day_of_year(&self) -> u16 {
                self.day_of_year
            }
            fn to_int(&self) -> i64 {
                self.to_int
            }
            fn is_utc(&self) -> bool {
                self.is_utc
            }
            fn utc_offset(&self) -> i32 {
                self.utc_offset
            }
            fn time_zone(&self) -> &str {
                self.zone
            }
        }

        /// Gives the length of the text, or the number of the refusal.
        pub fn strftime(record: &Record, format: &[u8], buffer: &mut [u8]) -> Result<usize, u8> {
            match $version::buffered::strftime(record, format, buffer) {
                Ok(text) => Ok(text.len()),
                Err($version::Error::InvalidTime) => Err(1),
                Err($version::Error::InvalidFormatString) => Err(2),
                Err($version::Error::FormattedStringTooLarge) => Err(3),
                Err($version::Error::WriteZero) => Err(4),
                Err(other) => panic!("an error without a number: {other}"),
            }
        }
    };
}

lend_to!(strftime);
