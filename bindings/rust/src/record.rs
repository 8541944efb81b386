use crate::abi::{self, gs_count_from_record, gs_record_from_count};
use crate::{Error, Time};

/// A time as plain fields, one for each method of [`Time`]. It is made from a count of seconds, or by
/// hand.
///
/// ```
/// use groatsaddle::{buffered::strftime, Record};
///
/// let sale = Record::from_count(1_735_574_709, 3600, 0, false)?;
/// let mut line = [0; 64];
/// let text = strftime(&sale, b"%F %T %z, week %V", &mut line)?;
/// assert_eq!(text, b"2024-12-30 17:05:09 +0100, week 01");
///
/// let named = Record { time_zone: "CET", ..sale };
/// assert_eq!(strftime(&named, b"%T %Z", &mut line)?, b"17:05:09 CET");
/// assert_eq!(named.count(), Ok(1_735_574_709));
/// # Ok::<(), groatsaddle::Error>(())
/// ```
#[derive(Debug, Clone, Copy, Default, PartialEq, Eq)]
pub struct Record<'a> {
    /// The year, with its century.
    pub year: i32,
    /// The month, `1..=12`.
    pub month: u8,
    /// The day of the month, `1..=31`.
    pub day: u8,
    /// The hour, `0..=23`.
    pub hour: u8,
    /// The minute, `0..=59`.
    pub minute: u8,
    /// The second, `0..=60`.
    pub second: u8,
    /// The nanoseconds, `0..=999_999_999`.
    pub nanoseconds: u32,
    /// The day of the week, `0..=6`; Sunday is 0.
    pub day_of_week: u8,
    /// The day of the year, `1..=366`, 366 only in a leap year.
    pub day_of_year: u16,
    /// The seconds since 1970-01-01 00:00:00 UTC, which `%s` prints.
    pub to_int: i64,
    /// Whether the time zone is UTC.
    pub is_utc: bool,
    /// The seconds that local time is east of UTC.
    pub utc_offset: i32,
    /// The name of the time zone, which `%Z` prints; its bytes are in `32..=126`.
    pub time_zone: &'a str,
}

impl Record<'_> {
    /// Gives the record of the instant `count` seconds after 1970-01-01 00:00:00 UTC, in local time
    /// `utc_offset` seconds east of UTC, by the proleptic Gregorian calendar.
    ///
    /// Every field is in range, `second` is at most 59, `day_of_week` and `day_of_year` are the
    /// date's, and `to_int` is the count. The zone name is empty.
    ///
    /// # Errors
    ///
    /// In this order: [`Error::InvalidTime`] if `nanoseconds` is above 999,999,999, and
    /// [`Error::OutOfRange`] if local time leaves an `i64` or its year an `i32`.
    pub fn from_count(
        count: i64,
        utc_offset: i32,
        nanoseconds: u32,
        is_utc: bool,
    ) -> Result<Self, Error> {
        // SAFETY: it takes numbers, and any will do.
        let dated =
            unsafe { gs_record_from_count(count, utc_offset, nanoseconds, u8::from(is_utc)) };
        match dated.refusal {
            0 => Ok(Self::with_no_zone(dated.record)),
            refusal => Err(Error::numbered(refusal)),
        }
    }

    /// Gives the count of the instant: the seconds since 1970-01-01 00:00:00 UTC. Date, time and
    /// `utc_offset` are read, and no other field.
    ///
    /// ```
    /// use groatsaddle::{Error, Record};
    ///
    /// let midnight = Record { year: 2024, month: 2, day: 29, ..Record::default() };
    /// assert_eq!(midnight.count(), Ok(1_709_164_800));
    /// assert_eq!(Record { day: 30, ..midnight }.count(), Err(Error::InvalidTime));
    /// ```
    ///
    /// # Errors
    ///
    /// [`Error::InvalidTime`] for a date that does not exist, an hour above 23, and a minute or a
    /// second above 59.
    pub fn count(&self) -> Result<i64, Error> {
        // SAFETY: it takes numbers, and any will do.
        let counted = unsafe { gs_count_from_record(abi::Record::of(self)) };
        match counted.refusal {
            0 => Ok(counted.count),
            refusal => Err(Error::numbered(refusal)),
        }
    }

    fn with_no_zone(record: abi::Record) -> Self {
        Record {
            year: record.year,
            month: record.month,
            day: record.day,
            hour: record.hour,
            minute: record.minute,
            second: record.second,
            nanoseconds: record.nanoseconds,
            day_of_week: record.day_of_week,
            day_of_year: record.day_of_year,
            to_int: record.to_int,
            is_utc: record.is_utc != 0,
            utc_offset: record.utc_offset,
            time_zone: "",
        }
    }
}

impl Time for Record<'_> {
    fn year(&self) -> i32 {
        self.year
    }
    fn month(&self) -> u8 {
        self.month
    }
    fn day(&self) -> u8 {
        self.day
    }
    fn hour(&self) -> u8 {
        self.hour
    }
    fn minute(&self) -> u8 {
        self.minute
    }
    fn second(&self) -> u8 {
        self.second
    }
    fn nanoseconds(&self) -> u32 {
        self.nanoseconds
    }
    fn day_of_week(&self) -> u8 {
        self.day_of_week
    }
    fn day_of_year(&self) -> u16 {
        self.day_of_year
    }
    fn to_int(&self) -> i64 {
        self.to_int
    }
    fn is_utc(&self) -> bool {
        self.is_utc
    }
    fn utc_offset(&self) -> i32 {
        self.utc_offset
    }
    fn time_zone(&self) -> &str {
        self.time_zone
    }
}
