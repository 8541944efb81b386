//! Cases gone through one by one.

use crate::formats::LETTERS;
use crate::judge::{Case, Judge};
use crate::library::{FlatRecord, LONGEST_BUFFER, LONGEST_FORMAT, LONGEST_ZONE};
use crate::sweeps::{every_offset, every_year};

const LEAP: FlatRecord = FlatRecord {
    year: 2024,
    month: 2,
    day: 29,
    hour: 13,
    minute: 5,
    second: 9,
    nanoseconds: 123_456_789,
    day_of_week: 4,
    day_of_year: 60,
    to_int: 1_709_211_909,
    is_utc: 0,
    utc_offset: 3600,
};
const BEFORE: FlatRecord = FlatRecord {
    year: -1,
    month: 1,
    day: 5,
    hour: 0,
    day_of_week: 2,
    day_of_year: 5,
    to_int: -62_198_323_200,
    is_utc: 1,
    utc_offset: 0,
    ..LEAP
};
const LEAST: FlatRecord = FlatRecord {
    year: i32::MIN,
    month: 9,
    nanoseconds: 0,
    to_int: i64::MIN,
    utc_offset: i32::MIN,
    ..LEAP
};
const LATE: FlatRecord = FlatRecord {
    year: 12_344,
    month: 12,
    day: 31,
    hour: 23,
    minute: 59,
    second: 60,
    nanoseconds: 999_999_999,
    day_of_week: 6,
    day_of_year: 366,
    to_int: i64::MAX,
    is_utc: 0,
    utc_offset: -36_000,
};
/// Day 366 of a common year.
const MISSING: FlatRecord = FlatRecord {
    year: 2023,
    day_of_week: 1,
    ..LATE
};

pub fn try_systematic(judge: &mut Judge) {
    directives(judge);
    bytes_in_a_directive(judge);
    modifiers(judge);
    fronts_of_formats(judge);
    every_room(judge);
    longest_inputs(judge);
    fields(judge);
    days_of_the_year(judge);
    day_366(judge);
    nanoseconds(judge);
    zone_bytes(judge);
    years(judge);
    weeks(judge);
    offsets(judge);
}

/// In buffers that are exactly full, one byte short, one byte longer, and the longest.
fn in_all_rooms(judge: &mut Judge, format: &[u8], zone: &[u8], record: FlatRecord) {
    let reach = judge.reach(format, zone, &record);
    let rooms = [reach, reach.saturating_sub(1), reach + 1, LONGEST_BUFFER];
    for room in rooms.map(|room| room.min(LONGEST_BUFFER)) {
        judge.try_case(&Case {
            format,
            zone,
            record,
            room,
        });
    }
}

fn in_a_wide_room(judge: &mut Judge, format: &str, zone: &[u8], record: FlatRecord) {
    judge.try_case(&Case {
        format: format.as_bytes(),
        zone,
        record,
        room: 512,
    });
}

/// Every sequence of at most two flags.
fn flag_sets() -> Vec<String> {
    let flags = ["", "-", "_", "0", "^", "#"];
    let pairs = flags
        .iter()
        .skip(1)
        .flat_map(|a| flags.iter().skip(1).map(move |b| format!("{a}{b}")));
    flags
        .iter()
        .map(|flag| flag.to_string())
        .chain(pairs)
        .collect()
}

fn directives(judge: &mut Judge) {
    let letters = LETTERS.iter().map(|&letter| char::from(letter).to_string());
    let offsets = [":z", "::z", ":::z", "::::z"].map(String::from);
    let widths = (1..=12).chain([20, 25, 64, 191, 192, 193]);
    let widths: Vec<String> = widths.map(|width| width.to_string()).collect();
    for letter in letters.chain(offsets) {
        for flags in flag_sets() {
            for width in widths.iter().map(String::as_str).chain([""]) {
                let format = format!("%{flags}{width}{letter}");
                for record in [LEAP, BEFORE, LEAST, LATE, MISSING] {
                    in_all_rooms(judge, format.as_bytes(), b"Cet", record);
                }
            }
        }
        for width in [65_535, 65_536, 65_537] {
            for flags in ["", "_", "0", "-"] {
                let format = format!("%{flags}{width}{letter}");
                in_all_rooms(judge, format.as_bytes(), b"Cet", BEFORE);
            }
        }
    }
}

/// Every byte at each place of a directive, with a letter behind it and at the end.
fn bytes_in_a_directive(judge: &mut Judge) {
    let fronts = [
        "", "%", "%-", "%_0^#", "%5", "%-12", "%E", "%5O", "%:", "%::", "%3:::",
    ];
    for front in fronts
        .iter()
        .chain(&["%2147483647", "%2147483648", "%214748364"])
    {
        for byte in 0..=255 {
            for end in ["", "Y", "z", "%Y", "5d"] {
                let format = [front.as_bytes(), &[byte], end.as_bytes()].concat();
                in_all_rooms(judge, &format, b"", LEAP);
            }
        }
    }
}

fn modifiers(judge: &mut Judge) {
    for modifier in ["E", "O", "EO", "OE", "EE", "OO", "E:", "O::", "E5", "O-"] {
        for byte in 0..=255 {
            let format = [b"%_4", modifier.as_bytes(), &[byte], b"Y"].concat();
            in_all_rooms(judge, &format, b"z", BEFORE);
        }
    }
}

fn fronts_of_formats(judge: &mut Judge) {
    for format in [
        "sale %Y-%m-%dT%H:%M:%S.%3N%:z, day %j of week %V: %A %-d %B%n",
        "%-_0^#12EY%OOH%:::z%::::z%99999999999d%Q%E%%%5%%-#Z%08e",
    ] {
        for end in 0..=format.len() {
            in_all_rooms(judge, &format.as_bytes()[..end], b"CEST", LATE);
        }
    }
}

fn every_room(judge: &mut Judge) {
    let bad = FlatRecord { month: 13, ..LEAP };
    for format in [
        "%c %D %r",
        "%20Y|%_20Y|%-Y|%20A",
        "a%6Bb%-12Dc%12N%_12z",
        "%Q%E%:%Zxyz",
    ] {
        for room in 0..100 {
            for record in [LEAP, BEFORE, bad] {
                judge.try_case(&Case {
                    format: format.as_bytes(),
                    zone: b"Cet",
                    record,
                    room,
                });
            }
        }
    }
}

fn longest_inputs(judge: &mut Judge) {
    let many = vec![b'x'; LONGEST_FORMAT + 1];
    for format in [0, 1, LONGEST_FORMAT - 1, LONGEST_FORMAT, LONGEST_FORMAT + 1] {
        for zone in [0, LONGEST_ZONE - 1, LONGEST_ZONE, LONGEST_ZONE + 1] {
            for room in [
                0,
                4096,
                LONGEST_BUFFER - 1,
                LONGEST_BUFFER,
                LONGEST_BUFFER + 1,
            ] {
                for start in ["", "%Z", "%", "%m", "%999999999A"] {
                    let mut format = [start.as_bytes(), &many].concat()[..format].to_vec();
                    let zone = &many[..zone];
                    let record = FlatRecord { month: 0, ..LEAP };
                    judge.try_case(&Case {
                        format: &format,
                        zone,
                        record,
                        room,
                    });
                    format.reverse();
                    judge.try_case(&Case {
                        format: &format,
                        zone,
                        record,
                        room,
                    });
                }
            }
        }
    }
}

/// Every value of the fields of one byte, under every directive, whether it reads the field or not.
fn fields(judge: &mut Judge) {
    let set: [fn(&mut FlatRecord, u8); 6] = [
        |record, value| record.month = value,
        |record, value| record.day = value,
        |record, value| record.hour = value,
        |record, value| record.minute = value,
        |record, value| record.second = value,
        |record, value| record.day_of_week = value,
    ];
    for letter in LETTERS {
        let format = format!("%{}", char::from(*letter));
        for set_field in set {
            for value in 0..=255 {
                let mut record = LEAP;
                set_field(&mut record, value);
                in_a_wide_room(judge, &format, b"", record);
            }
        }
    }
}

fn days_of_the_year(judge: &mut Judge) {
    for day_of_year in (0..=400).chain([512, 622, 65_535]) {
        let record = FlatRecord {
            day_of_year,
            ..LEAP
        };
        for format in ["%j", "%U", "%W", "%V", "%G", "%g", "%c"] {
            in_a_wide_room(judge, format, b"", record);
        }
    }
}

/// Under every directive, whether it reads the day or not, in common years and in leap years; centuries of both sorts.
fn day_366(judge: &mut Judge) {
    let centuries = (-40..=40).map(|n| n * 100);
    for year in every_year().chain(centuries) {
        for letter in LETTERS {
            let format = format!("%{}", char::from(*letter));
            let day_of_week = year.rem_euclid(7) as u8;
            let record = FlatRecord {
                year,
                day_of_week,
                ..LATE
            };
            in_a_wide_room(judge, &format, b"", record);
        }
    }
}

fn nanoseconds(judge: &mut Judge) {
    let powers = (0..10).flat_map(|n| [10_u32.pow(n) - 1, 10_u32.pow(n)]);
    for nanoseconds in powers.chain([123_456_789, 1_000_000_001, u32::MAX]) {
        let record = FlatRecord {
            nanoseconds,
            ..LEAP
        };
        for format in ["%L", "%N", "%1L|%2N|%3N|%6N|%8L|%9L|%10L|%_12N", "%c"] {
            in_a_wide_room(judge, format, b"", record);
        }
    }
}

/// Every byte at the first, a middle and the last place of a name, alone and in every place: under
/// flags and widths, between other items, and where nothing looks at it.
pub fn zone_bytes(judge: &mut Judge) {
    let widths = ["", "1", "3", "9", "64", "65", "200"];
    let directives = flag_sets()
        .into_iter()
        .flat_map(|flags| widths.map(|width| format!("%{flags}{width}Z")));
    let others = [
        "ab%Zc%9Z",
        "%F %T%20Z%n",
        "%Z%",
        "%9999999Z",
        "%999999999Z",
        "%QZ",
        "%EZ",
        "%:Z",
        "%Y",
        "Z",
    ];
    let formats: Vec<String> = directives.chain(others.map(String::from)).collect();
    for byte in 0..=255 {
        for zone in zones_with(byte) {
            for format in &formats {
                in_all_rooms(judge, format.as_bytes(), &zone, LEAP);
            }
        }
    }
}

fn zones_with(byte: u8) -> Vec<Vec<u8>> {
    let mut zones = vec![vec![byte], vec![byte; LONGEST_ZONE]];
    for length in [3, LONGEST_ZONE] {
        for place in [0, length / 2, length - 1] {
            let mut zone: Vec<u8> = b"Ab".iter().copied().cycle().take(length).collect();
            zone[place] = byte;
            zones.push(zone);
        }
    }
    zones
}

fn years(judge: &mut Judge) {
    let ends = (i32::MIN..i32::MIN + 200).chain(i32::MAX - 199..=i32::MAX);
    for year in (-12_000..=12_000).chain(ends) {
        let record = FlatRecord { year, ..LEAP };
        in_a_wide_room(
            judge,
            "%Y %C %y %G %g|%_Y %-Y %12Y %_12C|%F|%v|%c|%14F|%28c",
            b"",
            record,
        );
    }
}

fn weeks(judge: &mut Judge) {
    for year in every_year() {
        for day_of_year in 1..=366 {
            for day_of_week in 0..7 {
                let record = FlatRecord {
                    year,
                    day_of_week,
                    day_of_year,
                    ..LEAP
                };
                in_a_wide_room(judge, "%G %V %g %U %W", b"", record);
            }
        }
    }
}

fn offsets(judge: &mut Judge) {
    for utc_offset in every_offset() {
        for is_utc in [0, 1] {
            let record = FlatRecord {
                is_utc,
                utc_offset,
                ..LEAP
            };
            in_a_wide_room(
                judge,
                "%z %:z %::z %:::z %-z %-:z %-::z %-:::z",
                b"",
                record,
            );
            in_a_wide_room(
                judge,
                "%_z %_:z %_::z %_:::z %_-z %-_z %-_:::z",
                b"",
                record,
            );
            in_a_wide_room(
                judge,
                "%4z %5z %6z %7:z %9::z %10::z %4:::z %012z",
                b"",
                record,
            );
            in_a_wide_room(
                judge,
                "%_7z %_8:z %_11::z %-_12:::z %_12:::z %-12z",
                b"",
                record,
            );
        }
    }
}
