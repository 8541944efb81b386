//! Times the library, direct and from the stored form, beside a plain formatter and the original, and measures how deep their
//! stacks go.
//! Exit status 1: a text differs.

mod counter;
#[path = "../compare/library.rs"]
#[allow(dead_code)]
mod library;
#[path = "../compare/lot.rs"]
#[allow(dead_code)]
mod lot;
mod plain;
#[path = "../compare/record.rs"]
mod record;
mod runs;
#[path = "../compare/runs_library.rs"]
#[allow(dead_code)]
mod runs_library;
mod stack;
mod stored;
#[path = "../compare/stored_library.rs"]
mod stored_library;

use library::FlatRecord;
use lot::Lot;
use record::Record;
use stack::Stack;
use std::hint::black_box;
use std::process::ExitCode;
use std::time::Instant;

/// A million stamps of each format: so many windows of so many stamps.
const WINDOWS: usize = 1000;
const STAMPS: usize = 1000;

const ZONE: &[u8] = b"CEST";

/// 64 bytes, ten directives.
const A: &str = "sale %Y-%m-%dT%H:%M:%S.%L%z day %j (%a), module 07, coin or card";
/// Sixteen directives.
const B: &str = "%c %D %r %A %-d %B %Y %j %U %W %s %:z %G %V %u %Z";
const C: &str = "%F %T";
const LITERAL: &str = "sale of the day, module seven, paid by coin or card, no refund. ";

fn main() -> ExitCode {
    assert_eq!((A.len(), A.matches('%').count()), (64, 10));
    assert_eq!((LITERAL.len(), LITERAL.matches('%').count()), (64, 0));
    let [three, six, twelve] = [3, 6, 12].map(|times| A.repeat(times));
    let formats = [
        ("A: 64 bytes, ten directives", A),
        ("B: sixteen directives", B),
        ("C: %F %T", C),
        ("A three times, 225 bytes of text", &three),
        ("A six times, 450 bytes of text", &six),
        ("A twelve times, 900 bytes of text", &twelve),
        ("no format", ""),
        ("one literal byte", "x"),
        ("64 literal bytes", LITERAL),
    ];
    let records = sales();
    for (name, format) in formats {
        if let Err(record) = same_texts(&Read::new(format), &records) {
            println!("{name}: the four texts are not the same for record {record}");
            return ExitCode::FAILURE;
        }
    }
    println!("{WINDOWS} windows of {STAMPS} stamps, in ns a stamp: the best window, the median, the mean");
    for (at, (name, format)) in formats.into_iter().enumerate() {
        let times = race(&Read::new(format), &records);
        if at == 0 {
            print_million(&times);
        }
        print_times(name, &times);
    }
    stored::print_times(
        &formats.map(|(name, format)| (name, Read::new(format))),
        WINDOWS / 20,
    );
    for (name, format) in &formats[..3] {
        runs::print_times(name, &runs::race(format.as_bytes(), &records, WINDOWS));
    }
    let counts: Vec<i64> = records.iter().map(|record| record.to_int).collect();
    counter::print_times(&counter::race(&counts, WINDOWS));
    print_stacks(&formats.map(|(_, format)| format), &records);
    ExitCode::SUCCESS
}

/// A format, and its stored form: nothing if it ends inside a directive.
struct Read {
    format: Vec<u8>,
    stored: Vec<u8>,
}

impl Read {
    fn new(format: &str) -> Self {
        let format = format.as_bytes().to_vec();
        let stored = stored::compiled(&format);
        Read { format, stored }
    }
}

/// One window's records, as a module's sales bring them.
fn sales() -> Vec<FlatRecord> {
    let mut lot = Lot::new(1);
    let mut sale = |_| FlatRecord {
        year: lot.within(2020, 2035) as i32,
        month: lot.within(1, 12) as u8,
        day: lot.within(1, 31) as u8,
        hour: lot.within(0, 23) as u8,
        minute: lot.within(0, 59) as u8,
        second: lot.within(0, 59) as u8,
        nanoseconds: lot.within(0, 999_999_999) as u32,
        day_of_week: lot.within(0, 6) as u8,
        day_of_year: lot.within(1, 365) as u16,
        to_int: lot.within(1_577_836_800, 2_082_758_399),
        is_utc: 0,
        utc_offset: lot.within(-11, 14) as i32 * 3600,
    };
    (0..STAMPS).map(&mut sale).collect()
}

#[inline(never)]
fn original(record: &Record, format: &[u8], buffer: &mut [u8]) -> Result<usize, u8> {
    record::strftime(record, format, buffer)
}

/// The number of the first record whose texts differ.
fn same_texts(read: &Read, records: &[FlatRecord]) -> Result<(), usize> {
    let format = &read.format;
    let done = |answer: library::Answer| (answer.refusal == 0).then_some(answer.length as usize);
    let mut lines = [[0; 1024]; 4];
    for (at, record) in records.iter().enumerate() {
        let [ours, stored, plain, theirs] = &mut lines;
        let lengths = [
            done(library::format(format, ZONE, *record, ours)),
            done(stored::run(read, *record, stored)),
            plain::format(format, ZONE, *record, plain).ok(),
            original(&record.with_zone(ZONE), format, theirs).ok(),
        ];
        let texts = [0, 1, 2, 3].map(|who| lengths[who].map(|length| &lines[who][..length]));
        if texts[0].is_none() || texts.iter().any(|text| *text != texts[0]) {
            return Err(at);
        }
    }
    Ok(())
}

/// Nanoseconds a call, a window after the other.
struct Times {
    windows: Vec<f64>,
}

impl Times {
    fn new() -> Self {
        Times {
            windows: Vec::with_capacity(WINDOWS),
        }
    }

    fn window(&mut self, calls: impl FnOnce()) {
        let start = Instant::now();
        calls();
        self.windows
            .push(start.elapsed().as_nanos() as f64 / STAMPS as f64);
    }

    fn sorted(&self) -> Vec<f64> {
        let mut windows = self.windows.clone();
        windows.sort_by(f64::total_cmp);
        windows
    }

    fn best(&self) -> f64 {
        self.sorted()[0]
    }

    fn median(&self) -> f64 {
        self.sorted()[self.windows.len() / 2]
    }

    fn mean(&self) -> f64 {
        self.windows.iter().sum::<f64>() / self.windows.len() as f64
    }
}

/// Library, stored form, plain formatter and original in turn, window by window.
fn race(read: &Read, records: &[FlatRecord]) -> [Times; 4] {
    let format = &read.format[..];
    let times: Vec<Record> = records
        .iter()
        .map(|record| record.with_zone(ZONE))
        .collect();
    let mut line = [0; 1024];
    let mut all = [0; 4].map(|_| Times::new());
    let [ours, stored, plain, theirs] = &mut all;
    for _ in 0..WINDOWS {
        ours.window(|| {
            for record in records {
                black_box(library::format(black_box(format), ZONE, *record, &mut line));
            }
        });
        stored.window(|| {
            for record in records {
                black_box(stored::run(black_box(read), *record, &mut line));
            }
        });
        plain.window(|| {
            for record in records {
                let _ = black_box(plain::format(black_box(format), ZONE, *record, &mut line));
            }
        });
        theirs.window(|| {
            for time in &times {
                let _ = black_box(original(time, black_box(format), &mut line));
            }
        });
    }
    all
}

/// The measurement that the buyer asked for: all windows together.
fn print_million([ours, _, plain, theirs]: &[Times; 4]) {
    let milliseconds = |times: &Times| times.mean() * (WINDOWS * STAMPS) as f64 / 1e6;
    println!(
        "a million stamps of a 64-byte format with ten directives: library {:.0} ms, plain {:.0} ms, original {:.0} ms, library/plain {:.2}",
        milliseconds(ours),
        milliseconds(plain),
        milliseconds(theirs),
        ours.mean() / plain.mean()
    );
}

fn print_times(name: &str, [ours, stored, plain, theirs]: &[Times; 4]) {
    println!("{name}");
    for (who, times) in [
        ("library", ours),
        ("stored", stored),
        ("plain", plain),
        ("original", theirs),
    ] {
        println!(
            "    {who:<16} {:8.1} {:8.1} {:8.1}",
            times.best(),
            times.median(),
            times.mean()
        );
    }
    for (who, times, others) in [
        ("library/plain", ours, plain),
        ("library/original", ours, theirs),
        ("stored/library", stored, ours),
        ("stored/plain", stored, plain),
        ("stored/original", stored, theirs),
    ] {
        println!(
            "    {who:<16} {:8.2} {:8.2}",
            times.best() / others.best(),
            times.median() / others.median()
        );
    }
}

/// Every directive under flags and widths, and the formats that are timed.
fn deep_formats(timed: &[&str]) -> Vec<Read> {
    let letters = "%ABCDFGHILMNPRSTUVWXYZabcdeghjklmnprstuvwxyz"
        .chars()
        .map(String::from);
    let directives = letters.chain([":z", "::z", ":::z"].map(String::from));
    let fronts = [
        "", "-", "_", "0", "^", "#", "12", "_12", "-12", "012", "65536", "9999999",
    ];
    directives
        .flat_map(|directive| fronts.map(|front| format!("%{front}{directive}")))
        .chain(["%", "%E", "%5Q", "%99999999999Y"].map(String::from))
        .chain(timed.iter().map(|format| format.to_string()))
        .map(|format| Read::new(&format))
        .collect()
}

/// A formatter as the stack sees it: the answer is thrown away.
type Formatter = fn(&Read, FlatRecord, &mut [u8]);

#[inline(never)]
fn nothing(read: &Read, record: FlatRecord, buffer: &mut [u8]) {
    black_box((read, record, buffer));
}

#[inline(never)]
fn with_library(read: &Read, record: FlatRecord, buffer: &mut [u8]) {
    black_box(library::format(&read.format, ZONE, record, buffer));
}

#[inline(never)]
fn with_runs(read: &Read, record: FlatRecord, buffer: &mut [u8]) {
    let (store, line) = buffer.split_at_mut(library::LONGEST_FORMAT);
    black_box(runs::by_runs(
        &read.format,
        runs::SHORT,
        record,
        store,
        line,
    ));
}

#[inline(never)]
fn with_compile(read: &Read, _: FlatRecord, buffer: &mut [u8]) {
    black_box(stored_library::compile(&read.format, buffer));
}

#[inline(never)]
fn with_stored(read: &Read, record: FlatRecord, buffer: &mut [u8]) {
    black_box(stored::run(read, record, buffer));
}

#[inline(never)]
fn with_plain(read: &Read, record: FlatRecord, buffer: &mut [u8]) {
    let _ = black_box(plain::format(&read.format, ZONE, record, buffer));
}

#[inline(never)]
fn with_original(read: &Read, record: FlatRecord, buffer: &mut [u8]) {
    let _ = black_box(original(&record.with_zone(ZONE), &read.format, buffer));
}

/// The deepest call and its format.
fn deepest(formatter: Formatter, formats: &[Read], records: &[FlatRecord]) -> (usize, String) {
    let mut buffer = vec![0; library::LONGEST_BUFFER];
    let mut stack = Stack::new();
    let base = stack.depth(|| nothing(&formats[0], records[0], &mut buffer));
    let mut deepest = (base, String::new());
    for read in formats {
        for record in records {
            let depth = stack.depth(|| formatter(read, *record, &mut buffer));
            if depth > deepest.0 {
                deepest = (depth, String::from_utf8_lossy(&read.format).into_owned());
            }
        }
    }
    (deepest.0 - base, deepest.1)
}

fn print_stacks(timed: &[&str], sales: &[FlatRecord]) {
    let least = FlatRecord {
        year: i32::MIN,
        to_int: i64::MIN,
        utc_offset: i32::MIN,
        ..sales[0]
    };
    let records = [sales[0], sales[1], least];
    let formats = deep_formats(timed);
    println!(
        "deepest stack over {} formats, in bytes, and its format",
        formats.len()
    );
    let formatters: [(&str, Formatter); 6] = [
        ("library", with_library),
        ("library, in runs", with_runs),
        ("compiling", with_compile),
        ("stored", with_stored),
        ("plain", with_plain),
        ("original", with_original),
    ];
    for (who, formatter) in formatters {
        let (depth, format) = deepest(formatter, &formats, &records);
        println!("    {who:<16} {depth:8}   {format:.40}");
    }
}
