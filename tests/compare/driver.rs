//! Reads cases from standard input and writes each with the judge's answer appended.
//! README.md has the form of a line.

mod line;
mod record;

use line::encoded;
use record::{strftime, Record};
use std::io::{self, BufRead, BufWriter, Write};
use std::process::ExitCode;
use std::str::{self, FromStr};

const LONGEST_FORMAT: usize = 4096;
const LONGEST_ZONE: usize = 64;
const LONGEST_BUFFER: usize = 65536;

fn main() -> ExitCode {
    let mut out = BufWriter::new(io::stdout().lock());
    for (index, line) in io::stdin().lock().lines().enumerate() {
        let line = line.expect("standard input is readable text");
        let Some(answer) = answer(&line) else {
            out.flush().expect("standard output is writable");
            eprintln!("driver: line {} is not a case", index + 1);
            return ExitCode::from(2);
        };
        writeln!(out, "{line} {answer}").expect("standard output is writable");
    }
    out.flush().expect("standard output is writable");
    ExitCode::SUCCESS
}

/// The fields ANSWER and TEXT for a case.
fn answer(line: &str) -> Option<String> {
    let mut fields = line.split(' ');
    let format = decoded(fields.next()?)?;
    let zone = decoded(fields.next()?)?;
    let room: usize = number(fields.next()?)?;
    let record = Record {
        year: number(fields.next()?)?,
        month: number(fields.next()?)?,
        day: number(fields.next()?)?,
        hour: number(fields.next()?)?,
        minute: number(fields.next()?)?,
        second: number(fields.next()?)?,
        nanoseconds: number(fields.next()?)?,
        day_of_week: number(fields.next()?)?,
        day_of_year: number(fields.next()?)?,
        to_int: number(fields.next()?)?,
        is_utc: number::<u8>(fields.next()?).filter(|&n| n <= 1)? == 1,
        utc_offset: number(fields.next()?)?,
        zone: str::from_utf8(&zone).ok()?,
    };
    let too_long =
        format.len() > LONGEST_FORMAT || zone.len() > LONGEST_ZONE || room > LONGEST_BUFFER;
    if too_long || fields.next().is_some() {
        return None;
    }
    let mut buffer = vec![0; room];
    Some(match strftime(&record, &format, &mut buffer) {
        Ok(length) => format!("0 {}", encoded(&buffer[..length])),
        Err(refusal) => refusal.to_string(),
    })
}

fn number<T: FromStr>(field: &str) -> Option<T> {
    if field.starts_with('+') {
        return None;
    }
    field.parse().ok()
}

fn decoded(field: &str) -> Option<Vec<u8>> {
    let mut bytes = Vec::new();
    if field == "\\-" {
        return Some(bytes);
    }
    let mut rest = field;
    while let Some(first) = rest.chars().next() {
        if !first.is_ascii_graphic() {
            return None;
        }
        if first != '\\' {
            bytes.push(first as u8);
            rest = &rest[1..];
        } else if let Some(run) = rest.strip_prefix("\\*") {
            let (count, after) = run.split_once(';')?;
            let count: usize = number(count).filter(|&n| (2..=LONGEST_BUFFER).contains(&n))?;
            let byte = *bytes.last()?;
            bytes.resize(bytes.len() + count - 1, byte);
            rest = after;
        } else {
            let digits = rest.get(1..3)?;
            if !digits.bytes().all(|b| b.is_ascii_hexdigit()) {
                return None;
            }
            bytes.push(u8::from_str_radix(digits, 16).ok()?);
            rest = &rest[3..];
        }
    }
    (!bytes.is_empty()).then_some(bytes)
}
