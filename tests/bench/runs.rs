//! A format that comes in runs, beside the whole-format entry.

use crate::library::{self, FlatRecord, LONGEST_FORMAT};
use crate::runs_library::{answer, end, run, start, Progress};
use crate::{Times, ZONE};
use std::hint::black_box;

const LONG: usize = 32;
pub const SHORT: usize = 8;

pub fn by_runs(
    format: &[u8],
    length: usize,
    record: FlatRecord,
    store: &mut [u8],
    line: &mut [u8],
) -> Progress {
    let mut runs = start(format.len(), ZONE, store, line);
    for bytes in format.chunks(length) {
        runs = run(runs, bytes, ZONE, record, store, line);
    }
    answer(end(runs, ZONE, record, store, line))
}

/// Whether every text is the same by runs.
fn same_texts(format: &[u8], records: &[FlatRecord]) -> bool {
    let (mut whole, mut line, mut store) = ([0; 1024], [0; 1024], [0; LONGEST_FORMAT]);
    records.iter().all(|record| {
        let told = library::format(format, ZONE, *record, &mut whole);
        [LONG, SHORT].into_iter().all(|length| {
            let got = by_runs(format, length, *record, &mut store, &mut line);
            let end = told.length as usize;
            (got.refusal, got.more, got.length) == (0, 0, end) && line[..end] == whole[..end]
        })
    })
}

/// At once, in runs of 32 and in runs of 8 in turn, window by window.
pub fn race(format: &[u8], records: &[FlatRecord], windows: usize) -> [Times; 3] {
    assert!(same_texts(format, records), "a text differs by runs");
    let (mut line, mut store) = ([0; 1024], [0; LONGEST_FORMAT]);
    let mut all = [0; 3].map(|_| Times::new());
    let [whole, long, short] = &mut all;
    for _ in 0..windows {
        whole.window(|| {
            for record in records {
                black_box(library::format(black_box(format), ZONE, *record, &mut line));
            }
        });
        for (times, length) in [(&mut *long, LONG), (&mut *short, SHORT)] {
            times.window(|| {
                for record in records {
                    black_box(by_runs(
                        black_box(format),
                        length,
                        *record,
                        &mut store,
                        &mut line,
                    ));
                }
            });
        }
    }
    all
}

pub fn print_times(name: &str, [whole, long, short]: &[Times; 3]) {
    println!("{name}, in runs");
    for (who, times) in [("at once", whole), ("of 32", long), ("of 8", short)] {
        println!(
            "    {who:<16} {:8.1} {:8.1} {:8.1}   {:.2} of at once",
            times.best(),
            times.median(),
            times.mean(),
            times.best() / whole.best()
        );
    }
}
