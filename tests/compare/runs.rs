//! Cuts formats drawn by lot into runs, and compares what the library answers and leaves after each call.
//! The same seed gives the same courses. Exit status 1: some differ.

#[macro_use]
mod record;
mod by_runs;
mod course;
mod deviated;
mod deviations;
mod formats;
#[allow(dead_code)]
mod judge;
#[allow(dead_code)]
mod lent;
mod library;
mod line;
mod lot;
#[allow(dead_code)]
mod random;
mod reading;
mod records;
mod runs_library;
mod settled;
mod stream;
mod words;

use by_runs::ByRuns;
use course::{any_course, any_format_to_cut};
use judge::{Case, Judge};
use lot::Lot;
use random::{any_room, any_zone};
use records::any_record;
use std::process::ExitCode;
use words::{words_of, Words};

fn main() -> ExitCode {
    let Some(Words { exact, seed, count }) = words_of("runs") else {
        return ExitCode::from(2);
    };
    let mut lot = Lot::new(seed);
    let mut judge = Judge::new(exact);
    let mut by_runs = ByRuns::new(exact);
    for _ in 0..count {
        let format = any_format_to_cut(&mut lot);
        let zone = any_zone(&mut lot);
        let record = any_record(&mut lot, 40);
        let reach = judge.reach(&format, &zone, &record);
        let case = Case {
            format: &format,
            zone: &zone,
            record,
            room: any_room(&mut lot, reach),
        };
        let course = any_course(&mut lot, case);
        by_runs.try_course(&course);
        if lot.once_in(16) {
            by_runs.try_forged(&mut lot, &course);
        }
    }
    println!("by lot: {count} formats, seed {seed}");
    ExitCode::from(u8::from(!by_runs.report()))
}
