//! The binding as a program of the original uses it.

use groatsaddle::buffered::strftime;
use groatsaddle::{Error, Time, LONGEST_BUFFER, LONGEST_FORMAT, LONGEST_ZONE};

#[derive(Clone)]
struct Sale {
    year: i32,
    month: u8,
    second: u8,
    day_of_year: u16,
    is_utc: bool,
    utc_offset: i32,
    zone: String,
}

fn sale() -> Sale {
    Sale {
        year: 2024,
        month: 2,
        second: 9,
        day_of_year: 60,
        is_utc: false,
        utc_offset: 3600,
        zone: String::from("CET"),
    }
}

impl Time for Sale {
    fn year(&self) -> i32 {
        self.year
    }
    fn month(&self) -> u8 {
        self.month
    }
    fn day(&self) -> u8 {
        29
    }
    fn hour(&self) -> u8 {
        13
    }
    fn minute(&self) -> u8 {
        5
    }
    fn second(&self) -> u8 {
        self.second
    }
    fn nanoseconds(&self) -> u32 {
        123_456_789
    }
    fn day_of_week(&self) -> u8 {
        4
    }
    fn day_of_year(&self) -> u16 {
        self.day_of_year
    }
    fn to_int(&self) -> i64 {
        1_709_211_909
    }
    fn is_utc(&self) -> bool {
        self.is_utc
    }
    fn utc_offset(&self) -> i32 {
        self.utc_offset
    }
    fn time_zone(&self) -> &str {
        &self.zone
    }
}

fn text(time: &Sale, format: &str) -> String {
    let mut line = [0; 256];
    let text = strftime(time, format.as_bytes(), &mut line).expect(format);
    String::from_utf8(text.to_vec()).expect("ASCII")
}

#[track_caller]
fn refused(time: &Sale, format: &[u8], room: usize, error: Error) {
    let mut buffer = vec![b'.'; room];
    assert_eq!(strftime(time, format, &mut buffer), Err(error));
    assert!(
        buffer.iter().all(|&byte| byte == b'.'),
        "the buffer changed"
    );
}

#[test]
fn every_field_arrives() {
    assert_eq!(
        text(&sale(), "%Y %m %d %H %M %S %N %w %j %s %z %Z"),
        "2024 02 29 13 05 09 123456789 4 060 1709211909 +0100 CET"
    );
    let least = Sale {
        year: i32::MIN,
        utc_offset: i32::MIN,
        ..sale()
    };
    assert_eq!(text(&least, "%Y %::z"), "-2147483648 -0596523:14:08");
    let utc = Sale {
        is_utc: true,
        utc_offset: 0,
        ..sale()
    };
    assert_eq!(text(&utc, "%-z"), "-0000");
    assert_eq!(
        text(&sale(), groatsaddle::ASCTIME_FORMAT_STRING),
        "Thu Feb 29 13:05:09 2024"
    );
}

#[test]
fn the_rest_of_the_buffer_is_as_it_was() {
    let mut line = *b"........";
    let text = strftime(&sale(), b"%Y", &mut line).expect("there is room");
    text[0] = b'x';
    assert_eq!(line, *b"x024....");
}

#[test]
fn each_error() {
    let bad = Sale {
        month: 13,
        second: 61,
        ..sale()
    };
    refused(&bad, b"%m", 8, Error::InvalidTime);
    refused(&bad, b"ab%T", 8, Error::InvalidTime);
    assert_eq!(text(&bad, "%Y"), "2024");
    refused(&sale(), b"ab%5", 8, Error::InvalidFormatString);
    refused(&sale(), b"%9999999A", 8, Error::FormattedStringTooLarge);
    refused(&sale(), b"%F", 9, Error::WriteZero);
    refused(&sale(), b"x", 0, Error::WriteZero);
    let foreign = Sale {
        zone: String::from("é"),
        ..sale()
    };
    refused(&foreign, b"%Z", 8, Error::InvalidTime);
}

#[test]
fn only_leap_years_have_a_day_366() {
    let leap = Sale {
        day_of_year: 366,
        ..sale()
    };
    assert_eq!(text(&leap, "%j"), "366");
    let common = Sale { year: 2023, ..leap };
    refused(&common, b"%j", 8, Error::InvalidTime);
    refused(&common, b"%G %V", 8, Error::InvalidTime);
    assert_eq!(text(&common, "%Y"), "2023");
}

#[test]
fn zone_names_are_printable() {
    let named = |zone: &str| Sale {
        zone: String::from(zone),
        ..sale()
    };
    assert_eq!(text(&named(" ~"), "%Z|%5Z|%-5Z"), " ~|    ~| ~");
    for zone in ["\u{1f}", "\u{7f}", "\u{1b}[1m", "CE\u{1b}T", "CET\n"] {
        refused(&named(zone), b"%Z", 8, Error::InvalidTime);
        refused(&named(zone), b"ab%#9Z", 16, Error::InvalidTime);
        assert_eq!(text(&named(zone), "%Y"), "2024");
    }
    assert_eq!(text(&named(""), "%9Z"), "");
}

#[test]
fn longest_inputs() {
    let many = vec![b'x'; LONGEST_FORMAT + 1];
    let mut buffer = vec![0; LONGEST_BUFFER];
    let longest = &many[..LONGEST_FORMAT];
    assert_eq!(
        strftime(&sale(), longest, &mut buffer).as_deref(),
        Ok(longest)
    );
    refused(&sale(), &many, LONGEST_BUFFER, Error::InputTooLong);
    refused(&sale(), b"", LONGEST_BUFFER + 1, Error::InputTooLong);
    let long_zone = Sale {
        zone: "x".repeat(LONGEST_ZONE + 1),
        ..sale()
    };
    refused(&long_zone, b"%Y", 8, Error::InputTooLong);
}

#[test]
fn empty_format_and_empty_buffer() {
    assert_eq!(strftime(&sale(), b"", &mut []).as_deref(), Ok(&[][..]));
}

#[test]
fn an_error_is_an_error() {
    let error: Box<dyn std::error::Error> = Box::new(Error::WriteZero);
    assert_eq!(error.to_string(), "failed to write the whole buffer");
}
