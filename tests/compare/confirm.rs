//! Runs sentences of paper 01 beside the original as it stands, and those of paper 02 that deviate from it beside the judge.
//! Prints a line for each statement. The texts wanted here are written from the papers' words alone.

#[macro_use]
mod record;
mod deviated;
mod sweeps;

use record::{strftime, Record};
use std::process::ExitCode;
use sweeps::{every_offset, every_year};

const RECORD: Record<'static> = Record {
    year: 2024,
    month: 2,
    day: 29,
    hour: 13,
    minute: 5,
    second: 9,
    nanoseconds: 123_456_789,
    day_of_week: 4,
    day_of_year: 60,
    to_int: 1_709_211_909,
    is_utc: false,
    utc_offset: 3600,
    zone: "CET",
};

/// Paper 01.
const AS_IT_STANDS: [(&str, Sweep); 13] = [
    ("zeros fill after the minus sign, spaces before it", numbers),
    ("width above 65,535 is padded before any sign", wide_numbers),
    ("%z of -36000 is -01000", tenth_hour_west),
    ("a signed hour below 10 has an extra place", offsets),
    ("%:::z is %::z, %:z or the hours alone", shortest_offsets),
    ("minus below zero, or for UTC and the left flag", signs),
    ("%G %V %g keep the Thursday rule", existing_days),
    ("day 366 of a common year is the next January 1", day_366),
    ("but on a Monday it is in week 53 of its year", monday_366),
    ("default widths of %Y %C %y %G", default_widths),
    ("%U %W keep the formula", week_numbers),
    ("a zone byte is below 128, else 1 for %Z", zones_below_128),
    ("stamps at the edges", stamps),
];

/// Paper 02, requests 2 and 5.
const DEVIATED: [(&str, Sweep); 5] = [
    (
        "day 366 of a common year is 1 for %j %U %W %V %G %g",
        common_366,
    ),
    ("and for nothing else", others_366),
    (
        "%G %V %g keep the Thursday rule, day 366 of a leap year included",
        existing_days,
    ),
    ("a zone byte is 32 to 126, else 1 for %Z", printable_zones),
    ("and for nothing else", others_zone),
];

fn main() -> ExitCode {
    println!("the original as it stands:");
    let mut equal = confirm(strftime, &AS_IT_STANDS);
    print_text_left_by_refusals();
    println!("the judge:");
    equal &= confirm(deviated::strftime, &DEVIATED);
    ExitCode::from(u8::from(!equal))
}

fn confirm(version: Version, statements: &[(&str, Sweep)]) -> bool {
    let mut equal = true;
    for (statement, sweep) in statements {
        let mut trial = Trial::new(version);
        sweep(&mut trial);
        println!(
            "{statement}: {} tried, {} differ",
            trial.tried, trial.differ
        );
        equal &= trial.differ == 0;
    }
    equal
}

type Version = fn(&Record, &[u8], &mut [u8]) -> Result<usize, u8>;

type Sweep = fn(&mut Trial);

struct Trial {
    version: Version,
    buffer: Vec<u8>,
    tried: u64,
    differ: u64,
}

impl Trial {
    fn new(version: Version) -> Self {
        Trial {
            version,
            buffer: vec![0; 131_072],
            tried: 0,
            differ: 0,
        }
    }

    /// Wants a text from a buffer that is long enough.
    fn text(&mut self, format: &str, record: &Record, want: &str) {
        self.answer(format, record, self.buffer.len(), Ok(want));
    }

    fn answer(&mut self, format: &str, record: &Record, room: usize, want: Result<&str, u8>) {
        let buffer = &mut self.buffer[..room];
        let got = (self.version)(record, format.as_bytes(), buffer).map(|length| &buffer[..length]);
        let want = want.map(str::as_bytes);
        self.tried += 1;
        if got != want {
            self.differ += 1;
            if self.differ == 1 {
                let Record {
                    year,
                    day_of_week,
                    day_of_year,
                    utc_offset,
                    ..
                } = record;
                eprintln!(
                    "{format}, year {year}, weekday {day_of_week}, day {day_of_year}, \
                     offset {utc_offset}: wanted {}, got {}",
                    shown(want),
                    shown(got)
                );
            }
        }
    }
}

fn shown(answer: Result<&[u8], u8>) -> String {
    match answer {
        Ok(text) => String::from_utf8_lossy(&text[..text.len().min(80)]).into_owned(),
        Err(refusal) => format!("refusal {refusal}"),
    }
}

#[derive(Clone, Copy, PartialEq)]
enum Padding {
    Left,
    Spaces,
    Zeros,
}

#[derive(Clone, Copy)]
struct Flags {
    text: &'static str,
    left: bool,
    padding: Padding,
}

const FLAGS: [&str; 10] = ["", "-", "_", "0", "-0", "0-", "-_", "_-", "_0", "0_"];

fn flag_sets() -> impl Iterator<Item = Flags> {
    FLAGS.into_iter().map(read_flags)
}

fn read_flags(text: &'static str) -> Flags {
    let padding = match text.chars().last() {
        Some('_') => Padding::Spaces,
        Some('0') => Padding::Zeros,
        _ => Padding::Left,
    };
    Flags {
        text,
        left: text.contains('-'),
        padding,
    }
}

fn directive(flags: Flags, width: Option<usize>, name: &str) -> String {
    let width = width.map_or(String::new(), |n| n.to_string());
    format!("%{}{width}{name}", flags.text)
}

fn widths(last: usize) -> impl Iterator<Item = Option<usize>> {
    (0..=last).map(|n| (n > 0).then_some(n))
}

struct Number {
    letter: &'static str,
    value: i64,
    default: usize,
}

impl Number {
    fn filled_with_spaces(&self) -> bool {
        matches!(self.letter, "e" | "k" | "l")
    }

    fn text(&self, flags: Flags, width: Option<usize>) -> String {
        let sign = if self.value < 0 { "-" } else { "" };
        let digits = self.value.unsigned_abs().to_string();
        if flags.left {
            return format!("{sign}{digits}");
        }
        let spaces = if self.filled_with_spaces() {
            flags.padding != Padding::Zeros
        } else {
            flags.padding == Padding::Spaces
        };
        let width = width.unwrap_or(self.default);
        let excess = width.saturating_sub(65_535);
        let fill = (width - excess).saturating_sub(sign.len() + digits.len());
        if spaces {
            format!("{}{}{sign}{digits}", " ".repeat(excess), " ".repeat(fill))
        } else {
            format!("{}{sign}{}{digits}", "0".repeat(excess), "0".repeat(fill))
        }
    }

    fn plain(&self) -> String {
        self.text(read_flags(""), None)
    }
}

fn year_width(year: i64) -> usize {
    if year < 0 {
        5
    } else {
        4
    }
}

fn numbers_of(r: &Record) -> Vec<Number> {
    let year = i64::from(r.year);
    let hour = i64::from(r.hour);
    let hour_of_12 = if hour % 12 == 0 { 12 } else { hour % 12 };
    let weekday = i64::from(r.day_of_week);
    let number = |letter, default, value| Number {
        letter,
        value,
        default,
    };
    vec![
        number("Y", year_width(year), year),
        number("C", 2, (year - year.rem_euclid(100)) / 100),
        number("y", 2, year.rem_euclid(100)),
        number("m", 2, r.month.into()),
        number("d", 2, r.day.into()),
        number("e", 2, r.day.into()),
        number("j", 3, r.day_of_year.into()),
        number("H", 2, hour),
        number("k", 2, hour),
        number("I", 2, hour_of_12),
        number("l", 2, hour_of_12),
        number("M", 2, r.minute.into()),
        number("S", 2, r.second.into()),
        number("u", 1, if weekday == 0 { 7 } else { weekday }),
        number("w", 1, weekday),
        number("s", 1, r.to_int),
    ]
}

/// Records whose numbers all change from one to the next.
fn records(years: &[i32]) -> impl Iterator<Item = Record<'static>> + '_ {
    years.iter().zip(0_u8..).map(|(&year, n)| Record {
        year,
        month: n % 12 + 1,
        day: n % 31 + 1,
        hour: n % 24,
        minute: n % 60,
        second: n % 61,
        day_of_week: n % 7,
        day_of_year: u16::from(n) * 31 % 366 + 1,
        to_int: i64::from(year) << (n % 33),
        ..RECORD
    })
}

fn numbers(trial: &mut Trial) {
    let mut years: Vec<i32> = (-60..=60).collect();
    for n in [99, 100, 999, 1000, 1001, 9999, 10_000, 99_999, 123_456_789] {
        years.extend([n, -n]);
    }
    years.extend([i32::MIN, i32::MIN + 1, i32::MAX]);
    for record in records(&years) {
        for number in numbers_of(&record) {
            for flags in flag_sets() {
                for width in widths(14) {
                    let format = directive(flags, width, number.letter);
                    trial.text(&format, &record, &number.text(flags, width));
                }
            }
        }
    }
}

fn wide_numbers(trial: &mut Trial) {
    for record in records(&[i32::MIN, -10_000, -1, 0, 7, 2024, i32::MAX]) {
        for number in numbers_of(&record) {
            for flags in flag_sets() {
                for width in (65_534..=65_540).map(Some) {
                    let format = directive(flags, width, number.letter);
                    trial.text(&format, &record, &number.text(flags, width));
                }
            }
        }
    }
}

fn offset_text(form: &str, flags: Flags, width: Option<usize>, record: &Record) -> String {
    let seconds = i64::from(record.utc_offset).abs();
    let (h, m, s) = (seconds / 3600, seconds / 60 % 60, seconds % 60);
    let minus = record.utc_offset < 0 || record.is_utc && flags.left;
    let shape = match form {
        ":::z" if s != 0 => "::z",
        ":::z" if m != 0 => ":z",
        other => other,
    };
    let (taken, parts) = match shape {
        "z" => (5, format!("{m:02}")),
        ":z" => (6, format!(":{m:02}")),
        "::z" => (9, format!(":{m:02}:{s:02}")),
        _ => (3, String::new()),
    };
    let signed_hour = if minus { -h } else { h };
    let extra = usize::from(signed_hour < 10);
    let fill = width.unwrap_or(0).saturating_sub(taken) + extra;
    let sign = if minus { "-" } else { "+" };
    if flags.padding == Padding::Spaces {
        format!("{}{sign}{h}{parts}", " ".repeat(fill))
    } else {
        format!("{sign}{}{h}{parts}", "0".repeat(fill))
    }
}

fn try_offsets(trial: &mut Trial, forms: &[&str]) {
    for utc_offset in every_offset() {
        for is_utc in [false, true] {
            let record = Record {
                utc_offset,
                is_utc,
                ..RECORD
            };
            for form in forms {
                for flags in flag_sets() {
                    for width in widths(12) {
                        let format = directive(flags, width, form);
                        let want = offset_text(form, flags, width, &record);
                        trial.text(&format, &record, &want);
                    }
                }
            }
        }
    }
}

fn tenth_hour_west(trial: &mut Trial) {
    let record = Record {
        utc_offset: -36_000,
        ..RECORD
    };
    trial.text("%z", &record, "-01000");
}

fn offsets(trial: &mut Trial) {
    try_offsets(trial, &["z", ":z", "::z"]);
}

fn shortest_offsets(trial: &mut Trial) {
    try_offsets(trial, &[":::z"]);
}

fn signs(trial: &mut Trial) {
    let rows = [
        ("%-z", -1, false, "-0000"),
        ("%-z", 0, false, "+0000"),
        ("%z", 0, true, "+0000"),
        ("%-z", 0, true, "-0000"),
        ("%-0z", 0, true, "-0000"),
        ("%-_z", 0, true, " -000"),
        ("%-z", 36_000, true, "-01000"),
        ("%-z", 36_000, false, "+1000"),
        ("%-:::z", 0, true, "-00"),
    ];
    for (format, utc_offset, is_utc, want) in rows {
        let record = Record {
            utc_offset,
            is_utc,
            ..RECORD
        };
        trial.text(format, &record, want);
    }
}

fn is_leap(year: i64) -> bool {
    year % 4 == 0 && (year % 100 != 0 || year % 400 == 0)
}

fn days_in(year: i64) -> i64 {
    if is_leap(year) {
        366
    } else {
        365
    }
}

/// The year that holds the Thursday of the day's week from Monday on, and the week by that
/// Thursday's zero-based ordinal.
fn thursday_rule(year: i64, weekday: i64, day: i64) -> (i64, i64) {
    let days_after_monday = (weekday + 6) % 7;
    let thursday = day - 1 - days_after_monday + 3;
    if thursday < 0 {
        let before = year - 1;
        (before, (thursday + days_in(before)) / 7 + 1)
    } else if thursday >= days_in(year) {
        (year + 1, (thursday - days_in(year)) / 7 + 1)
    } else {
        (year, thursday / 7 + 1)
    }
}

fn try_week(trial: &mut Trial, year: i32, weekday: u8, day: u16, want: (i64, i64)) {
    let record = Record {
        year,
        day_of_week: weekday,
        day_of_year: day,
        ..RECORD
    };
    let (iso_year, week) = want;
    let century_year = iso_year.rem_euclid(100);
    let want = format!("{} {week:02} {century_year:02}", iso_year_text(iso_year));
    trial.text("%G %V %g", &record, &want);
}

fn iso_year_text(value: i64) -> String {
    let number = Number {
        letter: "G",
        value,
        default: year_width(value),
    };
    number.plain()
}

fn existing_days(trial: &mut Trial) {
    for year in every_year() {
        for day in 1..=days_in(year.into()) as u16 {
            for weekday in 0..7 {
                let want = thursday_rule(year.into(), weekday.into(), day.into());
                try_week(trial, year, weekday, day, want);
            }
        }
    }
}

fn common_years() -> impl Iterator<Item = i32> {
    every_year().filter(|&year| !is_leap(year.into()))
}

fn day_366(trial: &mut Trial) {
    for year in common_years() {
        for weekday in [0, 2, 3, 4, 5, 6] {
            let want = thursday_rule(i64::from(year) + 1, weekday.into(), 1);
            try_week(trial, year, weekday, 366, want);
        }
    }
}

fn monday_366(trial: &mut Trial) {
    for year in common_years() {
        try_week(trial, year, 1, 366, (year.into(), 53));
    }
}

fn common_366(trial: &mut Trial) {
    for year in common_years() {
        for weekday in 0..7 {
            let record = on_day_366(year, weekday);
            for format in ["%j", "%U", "%W", "%V", "%G", "%g", "ab%-5jcd"] {
                trial.answer(format, &record, 64, Err(1));
            }
        }
    }
}

/// The other directives print what they print on another day.
fn others_366(trial: &mut Trial) {
    const OTHERS: &str =
        "%A%B%C%D%F%H%I%L%M%N%P%R%S%T%X%Y%Z%a%b%c%d%e%h%k%l%m%n%p%r%s%t%u%v%w%x%y%z%%";
    for year in common_years() {
        for weekday in 0..7 {
            let record = on_day_366(year, weekday);
            let first = Record {
                day_of_year: 1,
                ..record
            };
            let mut buffer = [0; 512];
            let length = strftime(&first, OTHERS.as_bytes(), &mut buffer).expect("a text");
            let want = String::from_utf8_lossy(&buffer[..length]).into_owned();
            trial.text(OTHERS, &record, &want);
        }
    }
}

fn on_day_366(year: i32, day_of_week: u8) -> Record<'static> {
    Record {
        year,
        day_of_week,
        day_of_year: 366,
        ..RECORD
    }
}

fn default_widths(trial: &mut Trial) {
    let ends = (i32::MIN..i32::MIN + 200).chain(i32::MAX - 199..=i32::MAX);
    for year in (-12_000..=12_000).chain(ends) {
        // In the middle of the year, and where its ISO year is the one before and the one after.
        for (weekday, day) in [(4, 180), (0, 1), (1, 365)] {
            let record = Record {
                year,
                day_of_week: weekday,
                day_of_year: day,
                ..RECORD
            };
            let (iso_year, _) = thursday_rule(year.into(), weekday.into(), day.into());
            let mut want: Vec<String> =
                numbers_of(&record)[..3].iter().map(Number::plain).collect();
            want.push(iso_year_text(iso_year));
            trial.text("%Y %C %y %G", &record, &want.join(" "));
        }
    }
}

fn week_numbers(trial: &mut Trial) {
    for weekday in 0..7_u8 {
        for day in 1..=366_u16 {
            let record = Record {
                day_of_week: weekday,
                day_of_year: day,
                ..RECORD
            };
            let d = i64::from(day) - 1;
            let week = |first: i64| (d + 7 - (d - i64::from(weekday) + first).rem_euclid(7)) / 7;
            let want = format!("{:02} {:02}", week(0), week(1));
            trial.text("%U %W", &record, &want);
        }
    }
}

fn zones_below_128(trial: &mut Trial) {
    try_zones(trial, |byte| byte < 128);
}

fn printable_zones(trial: &mut Trial) {
    try_zones(trial, |byte| (32..=126).contains(&byte));
}

/// The first 256 characters, of which those from 128 on are of two such bytes, at each place of a name.
fn zones() -> impl Iterator<Item = String> {
    (0..=255_u8).flat_map(|byte| {
        let it = char::from(byte);
        [
            format!("{it}"),
            format!("{it}bc"),
            format!("a{it}c"),
            format!("ab{it}"),
        ]
    })
}

fn try_zones(trial: &mut Trial, taken: fn(u8) -> bool) {
    for zone in zones() {
        let record = Record {
            zone: &zone,
            ..RECORD
        };
        for flags in flag_sets() {
            for width in widths(9) {
                let fill = if flags.padding == Padding::Zeros {
                    "0"
                } else {
                    " "
                };
                let pad = width.unwrap_or(0).saturating_sub(zone.len());
                let pad = fill.repeat(if flags.left { 0 } else { pad });
                let text = format!("{pad}{zone}");
                let want = if zone.bytes().all(taken) {
                    Ok(text.as_str())
                } else {
                    Err(1)
                };
                trial.answer(&directive(flags, width, "Z"), &record, 64, want);
            }
        }
        // The check comes before the pad, and before any write.
        if !zone.bytes().all(taken) {
            trial.answer("%9999999Z", &record, 0, Err(1));
            trial.answer("ab%20Z", &record, 2, Err(1));
        }
    }
}

/// The other directives print what they print under another name.
fn others_zone(trial: &mut Trial) {
    const OTHERS: &str =
        "%A%B%C%D%F%G%H%I%L%M%N%P%R%S%T%U%V%W%X%Y%a%b%c%d%e%g%h%j%k%l%m%n%p%r%s%t%u%v%w%x%y%z%%";
    let mut buffer = [0; 512];
    let length = strftime(&RECORD, OTHERS.as_bytes(), &mut buffer).expect("a text");
    let want = String::from_utf8_lossy(&buffer[..length]).into_owned();
    for zone in zones() {
        let record = Record {
            zone: &zone,
            ..RECORD
        };
        trial.text(OTHERS, &record, &want);
    }
}

fn stamps(trial: &mut Trial) {
    let before = Record {
        year: -1,
        month: 1,
        day: 5,
        ..RECORD
    };
    let nine_hours = Record {
        utc_offset: 32_400,
        ..RECORD
    };
    let utc = Record {
        utc_offset: 0,
        is_utc: true,
        ..RECORD
    };
    let on = |year, day_of_week, day_of_year| Record {
        year,
        day_of_week,
        day_of_year,
        ..RECORD
    };
    let at = |second| Record { second, ..RECORD };
    let no_zone = Record { zone: "", ..RECORD };
    let wide = format!("0-{}1", "0".repeat(65_533));
    let rows: [(&str, &Record, usize, Result<&str, u8>); 18] = [
        ("%Y", &before, 65_536, Ok("-0001")),
        ("%_Y", &before, 65_536, Ok("   -1")),
        ("%v", &before, 65_536, Ok(" 5-JAN--001")),
        ("%z", &nine_hours, 65_536, Ok("+0900")),
        ("%_10z", &nine_hours, 65_536, Ok("      +900")),
        ("%-z", &utc, 65_536, Ok("-0000")),
        (
            "%G %V %U %W",
            &on(2024, 1, 365),
            65_536,
            Ok("2025 01 52 53"),
        ),
        ("%G %V %U %W", &on(2021, 0, 3), 65_536, Ok("2020 53 01 00")),
        ("%5", &RECORD, 65_536, Err(2)),
        ("%:", &RECORD, 65_536, Ok("%:")),
        ("%2147483648Y", &RECORD, 65_536, Ok("%2147483648Y")),
        ("%10Z", &no_zone, 65_536, Ok("")),
        ("%65536Y", &before, 65_536, Ok(&wide)),
        ("%65536Y", &before, 65_535, Err(4)),
        ("%9999999A", &RECORD, 65_536, Err(3)),
        ("%S", &at(60), 65_536, Ok("60")),
        ("%S", &at(61), 65_536, Err(1)),
        ("%-12D", &RECORD, 65_536, Ok("    02/29/24")),
    ];
    for (format, record, room, want) in rows {
        trial.answer(format, record, room, want);
    }
}

fn print_text_left_by_refusals() {
    let month_13 = Record {
        month: 13,
        ..RECORD
    };
    for (format, record, room) in [
        ("ab%B", &month_13, 8),
        ("ab%", &RECORD, 8),
        ("ab%9999999A", &RECORD, 8),
        ("%c", &RECORD, 8),
    ] {
        let mut buffer = vec![b'.'; room];
        let refusal = strftime(record, format.as_bytes(), &mut buffer).unwrap_err();
        let left = String::from_utf8_lossy(&buffer);
        let month = record.month;
        println!(
            "left by refusal {refusal} of {format}, month {month}, in a buffer of dots: {left}"
        );
    }
}
