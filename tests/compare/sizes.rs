//! Tries the sizing entry: 01's answers, and formats drawn by lot. The same seed gives the same formats.
//! Exit status 1: something is not as it should be.

mod formats;
mod library;
mod line;
mod lot;
mod reading;
mod record;
mod records;
mod sizing;

use formats::any_format;
use library::LONGEST_ZONE;
use lot::{seed_and_count, Lot};
use sizing::{Asked, Sizing, Told};
use std::process::ExitCode;

/// "Sizing, zone 0" of 01's stamps at the edges, and that 2 comes before 6, and 5 before 2.
fn edges(sizing: &mut Sizing) {
    let rows: [(&str, usize, Told); 17] = [
        ("", 0, Ok(0)),
        ("%Y", 0, Ok(11)),
        ("%s", 0, Ok(20)),
        ("%z", 0, Ok(10)),
        ("%12z", 0, Ok(17)),
        ("%:::z", 0, Ok(14)),
        ("%B%-m", 0, Ok(10)),
        ("%B%-m%-m", 0, Ok(12)),
        ("%B%B%-m", 0, Ok(19)),
        ("%10Z", 0, Ok(0)),
        ("%10Z", 1, Ok(10)),
        ("%65536Y", 0, Ok(65_536)),
        ("%65537Y", 0, Err(6)),
        ("%", 0, Err(2)),
        ("%65537Y%", 0, Err(2)),
        ("%", 65, Err(5)),
        ("", 65, Err(5)),
    ];
    for (format, longest, want) in rows {
        let format = format.as_bytes();
        sizing.expect(Asked { format, longest }, want);
    }
}

/// Directives whose lengths go by different fields, and by the month both ways.
fn fields_against_each_other(lot: &mut Lot) -> Vec<u8> {
    const PIECES: [&str; 24] = [
        "%B", "%B", "%-m", "%-m", "%^B", "%8B", "%_9B", "%-e", "%A", "%-d", "%-H", "%-I", "%-M",
        "%-S", "%-j", "%-U", "%-V", "%C", "%-y", "%-g", "%Z", "%10Z", "%c", "%:::z",
    ];
    let chosen = [0; 3].map(|_| lot.one_of(&PIECES));
    let count = lot.below(12);
    (0..count)
        .flat_map(|_| lot.one_of(&chosen).bytes())
        .collect()
}

fn any_longest(lot: &mut Lot) -> usize {
    match lot.below(32) {
        0..=7 => 0,
        8..=11 => LONGEST_ZONE,
        12 => lot.one_of(&[LONGEST_ZONE + 1, usize::MAX]),
        _ => lot.below(LONGEST_ZONE + 1),
    }
}

fn main() -> ExitCode {
    let words: Vec<String> = std::env::args().skip(1).collect();
    let Some((seed, count)) = seed_and_count(&words) else {
        eprintln!("usage: sizes SEED COUNT");
        return ExitCode::from(2);
    };
    let mut sizing = Sizing::new();
    edges(&mut sizing);
    let mut lot = Lot::new(seed);
    for _ in 0..count {
        let format = if lot.once_in(4) {
            fields_against_each_other(&mut lot)
        } else {
            any_format(&mut lot)
        };
        let longest = any_longest(&mut lot);
        let format = &format;
        sizing.try_format(&mut lot, Asked { format, longest });
    }
    ExitCode::from(u8::from(!sizing.report()))
}
