//! A record from a count, and back, which the original does not have.

use groatsaddle::buffered::strftime;
use groatsaddle::{Error, Record, Time};

/// The first and the last second of an i32's years.
const FIRST: i64 = -67_768_100_567_971_200;
const LAST: i64 = 67_767_976_233_532_799;

fn made(count: i64, utc_offset: i32) -> Record<'static> {
    let record = Record::from_count(count, utc_offset, 7, false).expect("it is in range");
    assert_eq!(record.count(), Ok(count));
    record
}

fn text(time: &impl Time, format: &str) -> String {
    let mut line = [0; 256];
    let text = strftime(time, format.as_bytes(), &mut line).expect(format);
    String::from_utf8(text.to_vec()).expect("ASCII")
}

#[test]
fn every_field_arrives() {
    let expected = Record {
        year: 2024,
        month: 12,
        day: 30,
        hour: 17,
        minute: 5,
        second: 9,
        nanoseconds: 123_456_789,
        day_of_week: 1,
        day_of_year: 365,
        to_int: 1_735_574_709,
        is_utc: true,
        utc_offset: 3600,
        time_zone: "",
    };
    let record = Record::from_count(1_735_574_709, 3600, 123_456_789, true);
    assert_eq!(record, Ok(expected));
    assert_eq!(
        text(&expected, "%F %T.%N %w %j %s %z [%Z]"),
        "2024-12-30 17:05:09.123456789 1 365 1735574709 +0100 []"
    );
    let named = Record {
        time_zone: "CET",
        ..expected
    };
    assert_eq!(text(&named, "%Z"), "CET");
}

#[test]
fn edges() {
    assert_eq!(
        text(&made(0, 0), "%A %F %T %j"),
        "Thursday 1970-01-01 00:00:00 001"
    );
    assert_eq!(
        text(&made(0, -1), "%A %F %T %j"),
        "Wednesday 1969-12-31 23:59:59 365"
    );
    assert_eq!(text(&made(FIRST, 0), "%F %T"), "-2147483648-01-01 00:00:00");
    assert_eq!(text(&made(LAST, 0), "%F %T"), "2147483647-12-31 23:59:59");
}

#[test]
fn each_error() {
    let from = |count, offset, nanoseconds| Record::from_count(count, offset, nanoseconds, true);
    assert_eq!(from(0, 0, 1_000_000_000), Err(Error::InvalidTime));
    assert_eq!(from(i64::MAX, 1, u32::MAX), Err(Error::InvalidTime));
    assert_eq!(from(i64::MAX, 1, 0), Err(Error::OutOfRange));
    assert_eq!(from(i64::MIN, 0, 0), Err(Error::OutOfRange));
    assert_eq!(from(LAST, 1, 0), Err(Error::OutOfRange));
    assert_eq!(from(FIRST - 1, 0, 0), Err(Error::OutOfRange));
    assert_eq!(Error::OutOfRange.to_string(), "out of range");
}

#[test]
fn the_way_back() {
    let day = |year, month, day| Record {
        year,
        month,
        day,
        ..Record::default()
    };
    assert_eq!(day(1970, 1, 1).count(), Ok(0));
    assert_eq!(day(0, 2, 29).count(), Ok(-62_162_121_600));
    assert_eq!(day(1900, 2, 29).count(), Err(Error::InvalidTime));
    assert_eq!(day(2024, 13, 1).count(), Err(Error::InvalidTime));
    assert_eq!(Record::default().count(), Err(Error::InvalidTime));
    let leap = Record {
        hour: 23,
        minute: 59,
        second: 60,
        ..day(2016, 12, 31)
    };
    assert_eq!(leap.count(), Err(Error::InvalidTime));
    // No other field is read.
    let odd = Record {
        nanoseconds: u32::MAX,
        day_of_week: 255,
        day_of_year: 0,
        to_int: i64::MIN,
        utc_offset: -3600,
        time_zone: "é",
        ..day(1970, 1, 1)
    };
    assert_eq!(odd.count(), Ok(3600));
}
