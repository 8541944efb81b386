//! Stored forms in turn: every entry, every byte in each place of an entry and of a step, and every length.

use crate::by_form::{ByForm, Run};
use crate::form::{step, Form, WIDEST};
use crate::formats::LETTERS;
use crate::library::{FlatRecord, LONGEST_BUFFER, LONGEST_FORMAT};

const ZONE: &[u8] = b"CEST";

const WIDTHS: [u32; 12] = [1, 2, 3, 5, 8, 9, 10, 12, 40, 65_535, 65_536, WIDEST];

fn records() -> [FlatRecord; 3] {
    let sale = FlatRecord {
        year: 2024,
        month: 2,
        day: 9,
        hour: 13,
        minute: 5,
        second: 9,
        nanoseconds: 12_345_678,
        day_of_week: 5,
        day_of_year: 40,
        to_int: 1_707_480_309,
        is_utc: 0,
        utc_offset: 3600,
    };
    let west = FlatRecord {
        year: -5,
        utc_offset: -36_930,
        ..sale
    };
    let nowhere = FlatRecord {
        month: 13,
        hour: 24,
        day_of_week: 7,
        day_of_year: 367,
        nanoseconds: u32::MAX,
        ..sale
    };
    [sale, west, nowhere]
}

pub fn try_forms(by_form: &mut ByForm) {
    every_entry(by_form);
    every_byte(by_form);
    every_length(by_form);
    longest_form(by_form);
}

/// The form with one directive, with text before it and behind it.
fn around(entry: [u8; 8]) -> Form {
    Form {
        literals: b"<>".to_vec(),
        directives: vec![entry],
        steps: vec![step(0, 1), step(1, 0), step(0, 1)],
    }
}

fn try_form(by_form: &mut ByForm, form: &Form, lengths: &[usize], rooms: &[usize]) {
    let stored = form.bytes();
    for record in records() {
        for &length in lengths {
            for &room in rooms {
                by_form.try_any(&Run {
                    stored: &stored,
                    length,
                    zone: ZONE,
                    record,
                    room,
                });
            }
        }
    }
}

/// Every letter and form, padding and sum of flags, with no width and with twelve.
fn every_entry(by_form: &mut ByForm) {
    for &code in [1, 2, 3].iter().chain(LETTERS) {
        for padding in 0..3 {
            for flags in 0..8 {
                let entry = |present, width: u32| {
                    let [a, b, c, d] = width.to_le_bytes();
                    around([code, padding, flags, present, a, b, c, d])
                };
                try_form(by_form, &entry(0, 0), &[0, 1], &[1, 4, 11, 60]);
                for width in WIDTHS {
                    try_form(by_form, &entry(1, width), &[0, 1, 9], &[12, 60]);
                }
            }
        }
    }
}

/// Each of the 256 bytes in each place of a form, an entry that no step names among its bytes.
fn every_byte(by_form: &mut ByForm) {
    let mut form = around([b'd', 1, 2, 1, 3, 0, 0, 0]);
    form.directives.push([b'A', 0, 0, 0, 0, 0, 0, 0]);
    let stored = form.bytes();
    for at in 0..stored.len() {
        for byte in 0..=255 {
            let mut stored = stored.clone();
            stored[at] = byte;
            by_form.try_any(&Run {
                stored: &stored,
                length: 6,
                zone: ZONE,
                record: records()[0],
                room: 60,
            });
        }
    }
}

/// Every length from 0 to 5,000, with a pad between one byte of text and six that stays one below its limit, one that
/// reaches it, and one that passes it by one.
fn every_length(by_form: &mut ByForm) {
    for length in 0..=5_000_u32 {
        for past in 4..=6 {
            let width = (length * 524_288 + past).min(WIDEST);
            let [a, b, c, d] = width.to_le_bytes();
            let form = around([b'A', 0, 0, 1, a, b, c, d]);
            try_form(by_form, &form, &[length as usize], &[30, LONGEST_BUFFER]);
        }
    }
}

/// The longest stored form of any format, and its neighbours' rooms.
fn longest_form(by_form: &mut ByForm) {
    let format = b"%Y".repeat(LONGEST_FORMAT / 2);
    for room in [22_533, 22_534, 22_535] {
        by_form.try_compile(&format, room);
    }
}
