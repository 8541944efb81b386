//! Records and zone names drawn by lot, the ends of ranges and types often.

use crate::library::FlatRecord;
use crate::lot::Lot;

/// One field in `odds` is out of its range, and day 366 in any year; none where `odds` is 0.
pub fn any_record(lot: &mut Lot, odds: usize) -> FlatRecord {
    let year = year(lot);
    let last_day = if odds == 0 && !leap(year) { 365 } else { 366 };
    FlatRecord {
        year,
        month: field(lot, odds, 1, 12, 255) as u8,
        day: field(lot, odds, 1, 31, 255) as u8,
        hour: field(lot, odds, 0, 23, 255) as u8,
        minute: field(lot, odds, 0, 59, 255) as u8,
        second: field(lot, odds, 0, 60, 255) as u8,
        nanoseconds: field(lot, odds, 0, 999_999_999, u32::MAX.into()) as u32,
        day_of_week: field(lot, odds, 0, 6, 255) as u8,
        day_of_year: field(lot, odds, 1, last_day, 65_535) as u16,
        to_int: signed(lot, i64::MIN, i64::MAX),
        is_utc: lot.one_of(&[0, 0, 0, 1, 1, 2, 128, 255]),
        utc_offset: offset(lot),
    }
}

pub fn leap(year: i32) -> bool {
    year % 4 == 0 && (year % 100 != 0 || year % 400 == 0)
}

fn field(lot: &mut Lot, odds: usize, low: i64, high: i64, most: i64) -> i64 {
    if odds != 0 && lot.once_in(odds) {
        let above = high + 1 + lot.within(0, most - high - 1);
        return if low == 0 {
            lot.one_of(&[high + 1, most, above])
        } else {
            lot.one_of(&[0, high + 1, most, above])
        };
    }
    match lot.below(8) {
        0 => low,
        1 => high,
        2 => lot.within(low, high.min(low + 9)),
        3 => lot.within(low.max(high - 9), high),
        _ => lot.within(low, high),
    }
}

fn year(lot: &mut Lot) -> i32 {
    if lot.once_in(2) {
        return lot.within(1900, 2100) as i32;
    }
    signed(lot, i32::MIN.into(), i32::MAX.into()) as i32
}

/// Any number of digits alike, the neighbours of the powers of ten, and the ends.
fn signed(lot: &mut Lot, least: i64, most: i64) -> i64 {
    let digits = most.to_string().len() as u32;
    let power = 10_i64.pow(lot.below(digits as usize) as u32);
    let size = match lot.below(6) {
        0 => power - 1,
        1 => power,
        2 => return lot.one_of(&[least, least + 1, most, most - 1, 0, -1]),
        _ => (lot.any() >> 1) as i64 % power,
    };
    if lot.once_in(2) {
        size
    } else {
        -size
    }
}

fn offset(lot: &mut Lot) -> i32 {
    match lot.below(6) {
        0 => signed(lot, i32::MIN.into(), i32::MAX.into()) as i32,
        1 => lot.within(-90_000, 90_000) as i32,
        2 => lot.one_of(&[0, 0, 1, -1, 35_999, 36_000, -36_000, -35_999, 59, -60, 3600]),
        3 => lot.within(-1500, 1500) as i32 * 60,
        _ => lot.within(-28, 28) as i32 * 1800,
    }
}

/// A name of bytes from 32 to 126.
pub fn printable_zone(lot: &mut Lot, longest: usize) -> Vec<u8> {
    let length = match lot.below(4) {
        0 => 0,
        1 => longest,
        2 => longest.min(3),
        _ => lot.below(longest + 1),
    };
    let letters_only = !lot.once_in(4);
    let byte = |_| {
        if letters_only {
            lot.one_of(b"ABCXYZabcxyz/+")
        } else {
            lot.within(32, 126) as u8
        }
    };
    (0..length).map(byte).collect()
}

/// The same with one byte below 32 or above 126, if the name isn't empty.
pub fn other_zone(lot: &mut Lot, longest: usize) -> Vec<u8> {
    let mut zone = printable_zone(lot, longest);
    if !zone.is_empty() {
        let at = lot.below(zone.len());
        zone[at] = match lot.below(4) {
            0 => lot.any() as u8 | 128,
            1 => lot.any() as u8 % 32,
            _ => lot.one_of(&[0, 10, 27, 31, 127, 128, 255]),
        };
    }
    zone
}
