//! The times that are stamped.

use groatsaddle::Record;

pub const SALE: Record = Record {
    year: 2024,
    month: 2,
    day: 29,
    hour: 13,
    minute: 5,
    second: 9,
    nanoseconds: 123_456_789,
    day_of_week: 4,
    day_of_year: 60,
    to_int: 1_709_211_909,
    is_utc: false,
    utc_offset: 3600,
    time_zone: "CET",
};

pub const MONTH_13: Record = Record { month: 13, ..SALE };
