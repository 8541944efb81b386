//! Compares the library with the judge: the answer, the text, every other byte of the buffer,
//! and guard bytes on both sides of it. Where no deviation is touched, the original as it stands
//! must answer the same.

use crate::deviated;
use crate::deviations::DEVIATIONS;
use crate::library::{self, Answer, FlatRecord, LONGEST_BUFFER, LONGEST_FORMAT, LONGEST_ZONE};
use crate::line::encoded;
use crate::lot::Lot;
use crate::record;

const GUARD: usize = 64;
const INPUT_TOO_LONG: u8 = 5;

#[derive(Clone, Copy)]
pub struct Case<'a> {
    pub format: &'a [u8],
    pub zone: &'a [u8],
    pub record: FlatRecord,
    pub room: usize,
}

impl Case<'_> {
    fn too_long(&self) -> bool {
        self.format.len() > LONGEST_FORMAT
            || self.zone.len() > LONGEST_ZONE
            || self.room > LONGEST_BUFFER
    }

    /// The case as a line of the stored list, up to the answer.
    pub fn line(&self) -> String {
        let r = &self.record;
        format!(
            "{} {} {} {} {} {} {} {} {} {} {} {} {} {} {}",
            encoded(self.format),
            encoded(self.zone),
            self.room,
            r.year,
            r.month,
            r.day,
            r.hour,
            r.minute,
            r.second,
            r.nanoseconds,
            r.day_of_week,
            r.day_of_year,
            r.to_int,
            u8::from(r.is_utc != 0),
            r.utc_offset
        )
    }
}

pub struct Judge {
    /// Lend blocks of just the lengths asked for, so that valgrind sees a byte read or
    /// written outside of them.
    exact: bool,
    /// What stands in the buffer and around it before each call.
    marks: Vec<u8>,
    around: Vec<u8>,
    /// The judge's text, and that of the original as it stands.
    judged: Vec<u8>,
    standing: Vec<u8>,
    /// How many cases have each answer of the judge, and refusal 5.
    counts: [u64; 6],
    differ: u64,
    /// How many cases were held to the original as it stands too.
    standing_too: u64,
    deviations: [Tally; DEVIATIONS.len()],
}

/// How many cases touch a deviation, how many of those the original as it stands answers
/// otherwise, and how many stand beside it.
#[derive(Clone, Copy, Default)]
struct Tally {
    touched: u64,
    otherwise: u64,
    beside: u64,
}

impl Judge {
    pub fn new(exact: bool) -> Self {
        let mut lot = Lot::new(0);
        let marks: Vec<u8> = (0..GUARD + LONGEST_BUFFER + 1 + GUARD)
            .map(|_| lot.any() as u8)
            .collect();
        Judge {
            exact,
            around: marks.clone(),
            judged: marks.clone(),
            standing: marks.clone(),
            marks,
            counts: [0; 6],
            differ: 0,
            standing_too: 0,
            deviations: [Tally::default(); DEVIATIONS.len()],
        }
    }

    /// How far the judge's text comes in the longest buffer, refused or not.
    pub fn reach(&mut self, format: &[u8], zone: &[u8], record: &FlatRecord) -> usize {
        let buffer = &mut self.judged[..LONGEST_BUFFER];
        let marks = &self.marks[..LONGEST_BUFFER];
        buffer.copy_from_slice(marks);
        deviated::strftime(&record.with_zone(zone), format, buffer).unwrap_or_else(|_| {
            let changed = buffer
                .iter()
                .zip(marks)
                .rposition(|(now, mark)| now != mark);
            changed.map_or(0, |last| last + 1)
        })
    }

    pub fn try_case(&mut self, case: &Case) {
        let want = self.wanted(case);
        let got = self.got(case);
        self.counts[usize::from(want.err().unwrap_or(0))] += 1;
        let standing = self.standing_fault(case, want);
        if let Some(fault) = self.fault(case, want, got).or(standing) {
            self.differ += 1;
            if self.differ == 1 {
                self.print_first(case, want, &fault);
            }
        }
    }

    fn wanted(&mut self, case: &Case) -> Result<usize, u8> {
        if case.too_long() {
            return Err(INPUT_TOO_LONG);
        }
        let buffer = &mut self.judged[..case.room];
        deviated::strftime(&case.record.with_zone(case.zone), case.format, buffer)
    }

    /// Whether the original as it stands answers otherwise than the judge, where no deviation is touched.
    fn standing_fault(&mut self, case: &Case, want: Result<usize, u8>) -> Option<String> {
        if case.too_long() {
            return None;
        }
        let buffer = &mut self.standing[..case.room];
        let answer = record::strftime(&case.record.with_zone(case.zone), case.format, buffer);
        let same = answer == want && {
            let length = want.unwrap_or(0);
            self.standing[..length] == self.judged[..length]
        };
        let mut touched = false;
        for (deviation, tally) in DEVIATIONS.iter().zip(&mut self.deviations) {
            if (deviation.touched.hold)(case) {
                touched = true;
                tally.touched += 1;
                tally.otherwise += u64::from(!same);
            }
            tally.beside += u64::from((deviation.beside.hold)(case));
        }
        self.standing_too += u64::from(!touched);
        (!touched && !same).then(|| format!("the original as it stands answers {answer:?}"))
    }

    fn got(&mut self, case: &Case) -> Answer {
        let all = GUARD + case.room + GUARD;
        self.around[..all].copy_from_slice(&self.marks[..all]);
        let buffer = &mut self.around[GUARD..GUARD + case.room];
        if !self.exact {
            return library::format(case.format, case.zone, case.record, buffer);
        }
        let (format, zone) = (case.format.to_vec(), case.zone.to_vec());
        let mut block = buffer.to_vec();
        let answer = library::format(&format, &zone, case.record, &mut block);
        buffer.copy_from_slice(&block);
        answer
    }

    /// The first thing that is not as it should be.
    fn fault(&self, case: &Case, want: Result<usize, u8>, got: Answer) -> Option<String> {
        let refusal = u32::from(want.err().unwrap_or(0));
        let length = want.unwrap_or(0);
        if got.refusal != refusal || got.length as usize != length {
            let (number, count) = (got.refusal, got.length);
            return Some(format!("the library answers {number} with length {count}"));
        }
        let end = GUARD + length;
        let all = GUARD + case.room + GUARD;
        let wanted = [
            &self.marks[..GUARD],
            &self.judged[..length],
            &self.marks[end..all],
        ];
        let found = [
            &self.around[..GUARD],
            &self.around[GUARD..end],
            &self.around[end..all],
        ];
        if wanted == found {
            return None;
        }
        let place = wanted
            .concat()
            .iter()
            .zip(&self.around)
            .position(|(a, b)| a != b)?;
        Some(format!(
            "the library: byte {} of the buffer is {}",
            place as i64 - GUARD as i64,
            self.around[place]
        ))
    }

    fn print_first(&self, case: &Case, want: Result<usize, u8>, fault: &str) {
        let answer = match want {
            Ok(length) => format!("0 {}", encoded(&self.judged[..length])),
            Err(refusal) => refusal.to_string(),
        };
        println!("the first that differs:\n{} {answer}", case.line());
        println!("{fault}");
    }

    pub fn tried(&self) -> u64 {
        self.counts.iter().sum()
    }

    /// Prints the counts; true if no case differs.
    pub fn report(&self) -> bool {
        for (answer, count) in self.counts.iter().enumerate() {
            println!("answer {answer}: {count}");
        }
        for (deviation, tally) in DEVIATIONS.iter().zip(&self.deviations) {
            println!(
                "{}: {} cases, of which the original as it stands answers {} otherwise",
                deviation.touched.what, tally.touched, tally.otherwise
            );
            println!("{}: {} cases", deviation.beside.what, tally.beside);
        }
        println!(
            "no deviation is touched: {} cases, by the original as it stands too",
            self.standing_too
        );
        println!("{} cases, {} differ", self.tried(), self.differ);
        self.differ == 0
    }
}
