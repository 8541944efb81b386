//! What a course of calls asks, by 02's request 4: after each call the numbers, the store and the buffer.
//! The text is the judge's, who writes as he goes: what he leaves in his slice is what a refusal leaves.

use crate::deviated;
use crate::judge::Case;
use crate::library::{LONGEST_BUFFER, LONGEST_FORMAT, LONGEST_ZONE};
use crate::runs_library::{Progress, Runs, LONGEST_RUN};
use crate::settled::settled;

const WRITE_ZERO: usize = 4;
const INPUT_TOO_LONG: usize = 5;
const LENGTH_MISMATCH: usize = 10;

pub struct Stream<'a> {
    case: Case<'a>,
    total: usize,
    /// The bytes that are read, and how many of them are settled.
    read: Vec<u8>,
    passed: usize,
    written: usize,
    refusal: usize,
    over: bool,
    /// What store and buffer hold.
    pub store: Vec<u8>,
    pub buffer: Vec<u8>,
}

/// The judge's answer, and how far his text came.
pub struct Left {
    pub answer: Result<usize, u8>,
    pub reach: usize,
}

/// The formatter's answer to a format in the buffer, and what it leaves there. A byte that it didn't write is the one
/// that stood there, whatever that was.
pub fn left_by(formatter: impl Fn(&mut [u8]) -> Result<usize, u8>, buffer: &mut [u8]) -> Left {
    let mut other: Vec<u8> = buffer.iter().map(|byte| !byte).collect();
    formatter(&mut other).ok();
    let answer = formatter(buffer);
    let same = buffer.iter().zip(&other).take_while(|(a, b)| a == b);
    Left {
        answer,
        reach: same.count(),
    }
}

impl<'a> Stream<'a> {
    /// The first call. `store` and `buffer` are what stands there.
    pub fn start(case: Case<'a>, total: usize, store: &[u8], buffer: &[u8]) -> Self {
        let too_long = total > LONGEST_FORMAT
            || case.zone.len() > LONGEST_ZONE
            || buffer.len() > LONGEST_BUFFER;
        let refusal = match too_long {
            true => INPUT_TOO_LONG,
            false if total > store.len() => WRITE_ZERO,
            false => 0,
        };
        Stream {
            case,
            total,
            read: Vec::new(),
            passed: 0,
            written: 0,
            refusal,
            over: false,
            store: store.to_vec(),
            buffer: buffer.to_vec(),
        }
    }

    pub fn numbers(&self) -> Runs {
        Runs {
            total: self.total,
            passed: self.passed,
            kept: self.read.len() - self.passed,
            written: self.written,
            number: self.refusal,
            over: u8::from(self.over),
        }
    }

    pub fn answer(&self) -> Progress {
        let done = self.refusal == 0 && self.over;
        Progress {
            refusal: self.refusal as u32,
            more: u8::from(self.refusal == 0 && !self.over),
            length: if done { self.written } else { 0 },
        }
    }

    fn answered(&self) -> bool {
        self.refusal != 0 || self.over
    }

    pub fn run(&mut self, bytes: &[u8]) {
        if self.answered() {
            return;
        }
        if bytes.len() > LONGEST_RUN {
            self.refusal = INPUT_TOO_LONG;
        } else if self.read.len() + bytes.len() > self.total {
            self.refusal = LENGTH_MISMATCH;
        } else {
            self.read_run(bytes);
        }
    }

    pub fn end(&mut self) {
        if self.answered() {
            return;
        }
        if self.read.len() != self.total {
            self.refusal = LENGTH_MISMATCH;
            return;
        }
        self.over = true;
        self.passed = self.total;
        let whole = self.read.clone();
        self.write_all(&whole);
    }

    /// The bytes go behind what is kept in the store, and what is pending then to its front.
    fn read_run(&mut self, bytes: &[u8]) {
        let kept = self.read.len() - self.passed;
        self.store[kept..kept + bytes.len()].copy_from_slice(bytes);
        self.read.extend_from_slice(bytes);
        let from = self.passed;
        self.passed += settled(&self.read[from..]);
        let pending = &self.read[self.passed..];
        self.store[..pending.len()].copy_from_slice(pending);
        if self.passed > from {
            self.write(from);
        }
    }

    /// What is settled from `from` on is asked of the judge alone, with as many blanks behind it as make the format
    /// whole: the size limit goes by that. Where it fails or has no room, all of it is asked in a buffer of just the length.
    fn write(&mut self, from: usize) {
        let part = filled(&self.read[from..self.passed], self.total);
        let filling = self.total - (self.passed - from);
        let mut text = vec![0; self.buffer.len() + LONGEST_FORMAT];
        let length = self.judged(&part, &mut text).map(|length| length - filling);
        match length {
            Ok(length) if self.written + length <= self.buffer.len() => {
                let end = self.written + length;
                self.buffer[self.written..end].copy_from_slice(&text[..length]);
                self.written = end;
            }
            _ => {
                let front = filled(&self.read[..self.passed], self.total);
                self.write_all(&front);
            }
        }
    }

    /// The text of a whole format, over what is written of it already.
    fn write_all(&mut self, format: &[u8]) {
        let mut buffer = std::mem::take(&mut self.buffer);
        let left = left_by(|place| self.judged(format, place), &mut buffer);
        self.buffer = buffer;
        self.written = left.reach;
        match left.answer {
            Ok(length) => self.written = length,
            Err(refusal) => self.refusal = usize::from(refusal),
        }
    }

    fn judged(&self, format: &[u8], buffer: &mut [u8]) -> Result<usize, u8> {
        let record = self.case.record.with_zone(self.case.zone);
        deviated::strftime(&record, format, buffer)
    }
}

/// A blank goes on with no directive.
fn filled(front: &[u8], total: usize) -> Vec<u8> {
    let mut format = front.to_vec();
    format.resize(total, b' ');
    format
}
