//! Compiles formats drawn by lot, runs their stored forms, and runs forms that are spoilt or drawn, beside what 02 asks.
//! The same seed gives the same cases. Exit status 1: some differ.

#[macro_use]
mod record;
mod by_form;
mod deviated;
#[allow(dead_code)]
mod deviations;
mod form;
#[allow(dead_code)]
mod formats;
mod forms;
mod hostile;
#[allow(dead_code)]
mod judge;
mod lent;
mod library;
mod limited;
mod line;
mod lot;
#[allow(dead_code)]
mod random;
mod reading;
mod records;
mod stored_library;
mod words;

use by_form::{ByForm, Run};
use form::{form_of, format_of};
use formats::any_format;
use hostile::Sorts;
use judge::{Case, Judge};
use library::{LONGEST_BUFFER, LONGEST_FORMAT};
use lot::Lot;
use random::{any_room, any_zone};
use records::any_record;
use std::process::ExitCode;
use words::{words_of, Words};

/// Buffers for each format, record and zone name.
const ROOMS: u64 = 3;

fn main() -> ExitCode {
    let Some(Words { exact, seed, count }) = words_of("stored") else {
        return ExitCode::from(2);
    };
    let mut lot = Lot::new(seed);
    let mut judge = Judge::new(exact);
    let mut by_form = ByForm::new(exact);
    if !exact {
        forms::try_forms(&mut by_form);
        println!("systematic: {} stored forms run", by_form.run());
    }
    try_formats(&mut lot, &mut judge, &mut by_form, count);
    println!("by lot: {count} stored forms run, seed {seed}");
    let sorts = try_hostile(&mut lot, &mut judge, &mut by_form, count / 3);
    println!("hostile: {} stored forms run", count / 3);
    for (sort, drawn) in sorts.counts {
        println!("    {sort}: {drawn}");
    }
    ExitCode::from(u8::from(!by_form.report()))
}

/// Formats compiled, and each that is stored run in three buffers: mostly with its own length, else with another.
fn try_formats(lot: &mut Lot, judge: &mut Judge, by_form: &mut ByForm, count: u64) {
    let mut run = 0;
    while run < count {
        let format = any_format(lot);
        let stored = form_of(&format).map(|form| form.bytes());
        let room = place_for(lot, stored.as_ref().map_or(0, Vec::len));
        by_form.try_compile(&format, room);
        let Some(stored) = stored.filter(|_| format.len() <= LONGEST_FORMAT) else {
            continue;
        };
        let zone = any_zone(lot);
        let record = any_record(lot, 40);
        let reach = judge.reach(&format, &zone, &record);
        for _ in 0..ROOMS.min(count - run) {
            let case = Case {
                format: &format,
                zone: &zone,
                record,
                room: any_room(lot, reach),
            };
            if lot.once_in(4) {
                let length = any_length(lot, format.len());
                by_form.try_any(&run_of(&case, &stored, length));
            } else {
                by_form.try_own(&case, &stored);
            }
            run += 1;
        }
    }
}

/// Forms that no format was compiled to, beside the real ones of formats that are short.
fn try_hostile(lot: &mut Lot, judge: &mut Judge, by_form: &mut ByForm, count: u64) -> Sorts {
    let mut sorts = Sorts::new();
    let mut run = 0;
    while run < count {
        let format = any_format(lot);
        let Some(real) = form_of(&format).map(|form| form.bytes()) else {
            continue;
        };
        if real.len() > 300 {
            continue;
        }
        for turn in 0..(2 * real.len() as u64).min(count - run) {
            let stored = sorts.draw(lot, &real, turn as usize);
            let zone = any_zone(lot);
            let record = any_record(lot, 60);
            let said = format_of(&stored).unwrap_or_default();
            let reach = judge.reach(&said, &zone, &record);
            let case = Case {
                format: &format,
                zone: &zone,
                record,
                room: any_room(lot, reach),
            };
            let length = any_length(lot, format.len());
            by_form.try_any(&run_of(&case, &stored, length));
            run += 1;
        }
    }
    sorts
}

fn run_of<'a>(case: &Case<'a>, stored: &'a [u8], length: usize) -> Run<'a> {
    Run {
        stored,
        length,
        zone: case.zone,
        record: case.record,
        room: case.room,
    }
}

/// Mostly near the length that the stored form needs.
fn place_for(lot: &mut Lot, length: usize) -> usize {
    match lot.below(16) {
        0..=3 => length,
        4..=5 => length.saturating_sub(1),
        6 => length + 1,
        7 => lot.below(length + 1),
        8 if lot.once_in(16) => LONGEST_BUFFER + 1,
        9 => LONGEST_BUFFER,
        _ => length + lot.below(100),
    }
}

/// From 0 to 5,000: near the format's, none, few, and on both sides of the longest.
fn any_length(lot: &mut Lot, length: usize) -> usize {
    match lot.below(8) {
        0..=1 => (length + lot.below(5)).saturating_sub(2),
        2 => length,
        3..=4 => 0,
        5 => lot.below(24),
        6 => lot.one_of(&[LONGEST_FORMAT - 1, LONGEST_FORMAT, LONGEST_FORMAT + 1]),
        _ => lot.below(5_001),
    }
}
