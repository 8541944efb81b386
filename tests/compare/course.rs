//! Courses of calls drawn by lot: a format cut into runs, with right and wrong totals, stores, runs and ends.

use crate::formats::{any_format, cut, ending, flags, pieces};
use crate::judge::Case;
use crate::library::LONGEST_FORMAT;
use crate::lot::Lot;
use crate::runs_library::LONGEST_RUN;

pub enum Call {
    Run(Vec<u8>),
    End,
}

/// What is lent through all calls of a course, and the calls after the first. The case's format is what the runs bring.
pub struct Course<'a> {
    pub case: Case<'a>,
    pub total: usize,
    pub store: usize,
    pub calls: Vec<Call>,
}

impl Course<'_> {
    /// Whether the calls bring the format as it is, in runs that are short enough, and then end.
    pub fn is_right(&self) -> bool {
        let runs = self
            .calls
            .iter()
            .take_while(|call| matches!(call, Call::Run(_)));
        let mut brought = Vec::new();
        for call in runs {
            match call {
                Call::Run(bytes) if bytes.len() <= LONGEST_RUN => brought.extend_from_slice(bytes),
                _ => return false,
            }
        }
        brought == self.case.format && self.total == brought.len() && self.store >= self.total
    }
}

/// Some with a directive that is long pending.
pub fn any_format_to_cut(lot: &mut Lot) -> Vec<u8> {
    if lot.once_in(8) {
        long_directive(lot)
    } else {
        any_format(lot)
    }
}

fn long_directive(lot: &mut Lot) -> Vec<u8> {
    let mut format = Vec::new();
    pieces(lot, &mut format, 3);
    format.push(b'%');
    let most = if lot.once_in(16) {
        LONGEST_FORMAT + 2 - format.len()
    } else {
        200
    };
    let end = format.len() + lot.below(most);
    let bytes: &[u8] = lot.one_of(&[b"-_0^#".as_slice(), b"0", b"1234567890", b":", b"-"]);
    while format.len() < end {
        format.push(lot.one_of(bytes));
    }
    if lot.once_in(2) {
        flags(lot, &mut format);
    }
    match lot.below(4) {
        0 => format.truncate(end),
        1 => format.extend_from_slice(b"12"),
        _ => {}
    }
    if !lot.once_in(6) {
        ending(lot, &mut format);
        pieces(lot, &mut format, 3);
    }
    if lot.once_in(12) {
        cut(lot, &mut format);
    }
    format
}

pub fn any_course<'a>(lot: &mut Lot, case: Case<'a>) -> Course<'a> {
    let total = any_total(lot, case.format.len());
    let store = match lot.below(64) {
        0 => lot.below(total + 1),
        1..=16 => total + lot.below(80),
        _ => total,
    };
    let mut calls = runs_of(lot, case.format);
    if lot.once_in(16) {
        let at = lot.below(calls.len() + 1);
        let most = lot.one_of(&[1, 8, 100, 5000]);
        let length = LONGEST_RUN + 1 + lot.below(most);
        calls.insert(at, Call::Run(some_bytes(lot, length)));
    }
    if lot.once_in(24) {
        let kept = lot.below(calls.len() + 1);
        calls.truncate(kept);
    }
    calls.push(Call::End);
    for _ in 0..lot.below(4) {
        let length = lot.below(LONGEST_RUN + 3);
        let call = match lot.below(3) {
            0 => Call::End,
            _ => Call::Run(some_bytes(lot, length)),
        };
        calls.push(call);
    }
    Course {
        case,
        total,
        store,
        calls,
    }
}

/// Mostly the length, or one that is near it.
fn any_total(lot: &mut Lot, length: usize) -> usize {
    match lot.below(32) {
        0..=1 => length + 1,
        2..=3 => length.saturating_sub(1),
        4 => length + lot.below(50),
        5 => lot.below(length + 1),
        _ => length,
    }
}

/// The bytes in runs of 0 to 32: all of one length, all short, or any. Many bytes are seldom cut into short ones.
fn runs_of(lot: &mut Lot, bytes: &[u8]) -> Vec<Call> {
    let mut most = lot.one_of(&[1, 2, 3, 8, LONGEST_RUN, LONGEST_RUN]);
    if bytes.len() > 300 && !lot.once_in(10) {
        most = LONGEST_RUN;
    }
    let least = if lot.once_in(3) { most } else { 0 };
    let mut calls = Vec::new();
    let mut rest = bytes;
    while !rest.is_empty() {
        let length = least + lot.below(most - least + 1);
        let (run, behind) = rest.split_at(length.min(rest.len()));
        calls.push(Call::Run(run.to_vec()));
        rest = behind;
    }
    if lot.once_in(8) {
        calls.push(Call::Run(Vec::new()));
    }
    calls
}

fn some_bytes(lot: &mut Lot, length: usize) -> Vec<u8> {
    (0..length).map(|_| lot.one_of(b"%%dYx-:z")).collect()
}
