//! A plain formatter, written straight through in one pass. It has the directives below, and no others.

use crate::library::FlatRecord;

const INVALID_TIME: u8 = 1;
const INVALID_FORMAT_STRING: u8 = 2;
const WRITE_ZERO: u8 = 4;

const DAYS: [&str; 7] = [
    "Sunday",
    "Monday",
    "Tuesday",
    "Wednesday",
    "Thursday",
    "Friday",
    "Saturday",
];
const MONTHS: [&str; 12] = [
    "January",
    "February",
    "March",
    "April",
    "May",
    "June",
    "July",
    "August",
    "September",
    "October",
    "November",
    "December",
];

/// Where the text goes.
struct Out<'a> {
    buffer: &'a mut [u8],
    at: usize,
}

impl Out<'_> {
    fn byte(&mut self, byte: u8) -> Result<(), u8> {
        *self.buffer.get_mut(self.at).ok_or(WRITE_ZERO)? = byte;
        self.at += 1;
        Ok(())
    }

    fn text(&mut self, text: &[u8]) -> Result<(), u8> {
        let end = self.at + text.len();
        let place = self.buffer.get_mut(self.at..end).ok_or(WRITE_ZERO)?;
        place.copy_from_slice(text);
        self.at = end;
        Ok(())
    }

    fn two(&mut self, value: u8) -> Result<(), u8> {
        self.text(&[b'0' + value / 10, b'0' + value % 10])
    }

    /// Decimal, filled with zeros after the sign.
    fn number(&mut self, value: i64, width: usize) -> Result<(), u8> {
        let mut digits = [0; 20];
        let mut from = digits.len();
        let mut rest = value.unsigned_abs();
        loop {
            from -= 1;
            digits[from] = b'0' + (rest % 10) as u8;
            rest /= 10;
            if rest == 0 {
                break;
            }
        }
        let mut length = digits.len() - from;
        if value < 0 {
            self.byte(b'-')?;
            length += 1;
        }
        for _ in length..width {
            self.byte(b'0')?;
        }
        self.text(&digits[from..])
    }

    fn clock(&mut self, hour: u8, minute: u8, second: u8) -> Result<(), u8> {
        self.two(hour)?;
        self.byte(b':')?;
        self.two(minute)?;
        self.byte(b':')?;
        self.two(second)
    }

    fn offset(&mut self, seconds: i32, colon: bool) -> Result<(), u8> {
        let size = seconds.unsigned_abs();
        self.byte(if seconds < 0 { b'-' } else { b'+' })?;
        if seconds < 0 || size < 36_000 {
            self.byte(b'0')?;
        }
        self.number(i64::from(size / 3600), 1)?;
        if colon {
            self.byte(b':')?;
        }
        self.two((size / 60 % 60) as u8)
    }
}

fn in_range<T: PartialOrd>(value: T, low: T, high: T) -> Result<T, u8> {
    if value < low || value > high {
        return Err(INVALID_TIME);
    }
    Ok(value)
}

/// The checked fields.
impl FlatRecord {
    fn month(&self) -> Result<u8, u8> {
        in_range(self.month, 1, 12)
    }
    fn day(&self) -> Result<u8, u8> {
        in_range(self.day, 1, 31)
    }
    fn hour(&self) -> Result<u8, u8> {
        in_range(self.hour, 0, 23)
    }
    fn minute(&self) -> Result<u8, u8> {
        in_range(self.minute, 0, 59)
    }
    fn second(&self) -> Result<u8, u8> {
        in_range(self.second, 0, 60)
    }
    fn nanoseconds(&self) -> Result<u32, u8> {
        in_range(self.nanoseconds, 0, 999_999_999)
    }
    fn day_of_week(&self) -> Result<u8, u8> {
        in_range(self.day_of_week, 0, 6)
    }
    fn day_of_year(&self) -> Result<u16, u8> {
        in_range(self.day_of_year, 1, days_in(self.year.into()) as u16)
    }
    fn day_name(&self) -> Result<&'static [u8], u8> {
        Ok(DAYS[usize::from(self.day_of_week()?)].as_bytes())
    }
    fn month_name(&self) -> Result<&'static [u8], u8> {
        Ok(MONTHS[usize::from(self.month()? - 1)].as_bytes())
    }
}

fn year_width(year: i64) -> usize {
    if year < 0 {
        5
    } else {
        4
    }
}

fn days_in(year: i64) -> i64 {
    let leap = year % 4 == 0 && (year % 100 != 0 || year % 400 == 0);
    365 + i64::from(leap)
}

/// The year that holds the Thursday of the week, and the week's number in it.
fn iso_week(record: &FlatRecord) -> Result<(i64, i64), u8> {
    let year = i64::from(record.year);
    let after_monday = i64::from((record.day_of_week()? + 6) % 7);
    let thursday = i64::from(record.day_of_year()?) - 1 - after_monday + 3;
    Ok(if thursday < 0 {
        (year - 1, (thursday + days_in(year - 1)) / 7 + 1)
    } else if thursday >= days_in(year) {
        (year + 1, 1)
    } else {
        (year, thursday / 7 + 1)
    })
}

/// The week of the year, from the first day that is `first` days after Sunday.
fn week(record: &FlatRecord, first: i64) -> Result<i64, u8> {
    let weekday = i64::from(record.day_of_week()?);
    let day = i64::from(record.day_of_year()?) - 1;
    Ok((day + 7 - (weekday + 7 - first) % 7) / 7)
}

fn date_time(out: &mut Out, r: &FlatRecord) -> Result<(), u8> {
    let (day_name, month_name, day) = (r.day_name()?, r.month_name()?, r.day()?);
    let (hour, minute, second) = (r.hour()?, r.minute()?, r.second()?);
    out.text(&day_name[..3])?;
    out.byte(b' ')?;
    out.text(&month_name[..3])?;
    out.byte(b' ')?;
    out.byte(if day < 10 { b' ' } else { b'0' + day / 10 })?;
    out.byte(b'0' + day % 10)?;
    out.byte(b' ')?;
    out.clock(hour, minute, second)?;
    out.byte(b' ')?;
    out.number(r.year.into(), year_width(r.year.into()))
}

fn date(out: &mut Out, r: &FlatRecord) -> Result<(), u8> {
    let (month, day) = (r.month()?, r.day()?);
    out.two(month)?;
    out.byte(b'/')?;
    out.two(day)?;
    out.byte(b'/')?;
    out.two(r.year.rem_euclid(100) as u8)
}

fn iso_date(out: &mut Out, r: &FlatRecord) -> Result<(), u8> {
    let (month, day) = (r.month()?, r.day()?);
    out.number(r.year.into(), year_width(r.year.into()))?;
    out.byte(b'-')?;
    out.two(month)?;
    out.byte(b'-')?;
    out.two(day)
}

fn time_12(out: &mut Out, r: &FlatRecord) -> Result<(), u8> {
    let (hour, minute, second) = (r.hour()?, r.minute()?, r.second()?);
    out.clock((hour + 11) % 12 + 1, minute, second)?;
    out.text(if hour < 12 { b" AM" } else { b" PM" })
}

fn time_24(out: &mut Out, r: &FlatRecord) -> Result<(), u8> {
    let (hour, minute, second) = (r.hour()?, r.minute()?, r.second()?);
    out.clock(hour, minute, second)
}

/// A field of two digits, or fewer with the left flag.
fn two_digits(out: &mut Out, left: bool, value: u8) -> Result<(), u8> {
    if left && value < 10 {
        out.byte(b'0' + value)
    } else {
        out.two(value)
    }
}

fn number(out: &mut Out, letter: u8, left: bool, r: &FlatRecord) -> Result<(), u8> {
    match letter {
        b'Y' => out.number(r.year.into(), year_width(r.year.into())),
        b'm' => two_digits(out, left, r.month()?),
        b'd' => two_digits(out, left, r.day()?),
        b'H' => two_digits(out, left, r.hour()?),
        b'M' => two_digits(out, left, r.minute()?),
        b'S' => two_digits(out, left, r.second()?),
        b'L' => out.number((r.nanoseconds()? / 1_000_000).into(), 3),
        b'j' => out.number(r.day_of_year()?.into(), 3),
        b's' => out.number(r.to_int, 1),
        b'u' => out.byte(b'0' + (r.day_of_week()? + 6) % 7 + 1),
        b'U' => out.number(week(r, 0)?, 2),
        b'W' => out.number(week(r, 1)?, 2),
        b'V' => out.number(iso_week(r)?.1, 2),
        b'G' => {
            let (year, _) = iso_week(r)?;
            out.number(year, year_width(year))
        }
        _ => Err(INVALID_FORMAT_STRING),
    }
}

fn directive(
    out: &mut Out,
    letter: u8,
    left: bool,
    colon: bool,
    r: &FlatRecord,
    zone: &[u8],
) -> Result<(), u8> {
    match letter {
        b'A' => out.text(r.day_name()?),
        b'a' => out.text(&r.day_name()?[..3]),
        b'B' => out.text(r.month_name()?),
        b'z' => out.offset(r.utc_offset, colon),
        b'Z' if zone.iter().all(|byte| matches!(byte, 32..=126)) => out.text(zone),
        b'Z' => Err(INVALID_TIME),
        b'c' => date_time(out, r),
        b'D' => date(out, r),
        b'F' => iso_date(out, r),
        b'r' => time_12(out, r),
        b'T' => time_24(out, r),
        b'%' => out.byte(b'%'),
        _ => number(out, letter, left, r),
    }
}

/// Gives the length of the text, or the number of the refusal.
#[inline(never)]
pub fn format(
    format: &[u8],
    zone: &[u8],
    record: FlatRecord,
    buffer: &mut [u8],
) -> Result<usize, u8> {
    let mut out = Out { buffer, at: 0 };
    let mut bytes = format.iter().copied();
    while let Some(byte) = bytes.next() {
        if byte != b'%' {
            out.byte(byte)?;
            continue;
        }
        let (mut left, mut colon) = (false, false);
        let letter = loop {
            match bytes.next() {
                Some(b'-') => left = true,
                Some(b':') => colon = true,
                Some(letter) => break letter,
                None => return Err(INVALID_FORMAT_STRING),
            }
        };
        directive(&mut out, letter, left, colon, &record, zone)?;
    }
    Ok(out.at)
}
