//! Compares the library's compiled formats with what 02's request 6 asks: the stored form of a format; and what a stored
//! form, real or hostile, answers and leaves. The text is the judge's, with a limit by the length that is passed.

use crate::deviated;
use crate::form::{form_of, format_of};
use crate::judge::Case;
use crate::lent::Lender;
use crate::library::{self, Answer, FlatRecord, LONGEST_BUFFER, LONGEST_FORMAT, LONGEST_ZONE};
use crate::limited;
use crate::line::encoded;
use crate::stored_library;

const INVALID_FORMAT_STRING: u32 = 2;
const WRITE_ZERO: u32 = 4;
const INPUT_TOO_LONG: u32 = 5;
const BAD_STORED: u32 = 11;

/// What a stored form is run with.
#[derive(Clone, Copy)]
pub struct Run<'a> {
    pub stored: &'a [u8],
    pub length: usize,
    pub zone: &'a [u8],
    pub record: FlatRecord,
    pub room: usize,
}

pub struct ByForm {
    exact: bool,
    lender: Lender,
    /// The text that is asked for.
    text: Vec<u8>,
    compiled: [u64; 12],
    longest: usize,
    answers: [u64; 12],
    own_length: u64,
    length_0: u64,
    differ: u64,
}

impl ByForm {
    pub fn new(exact: bool) -> Self {
        ByForm {
            exact,
            lender: Lender::new(exact),
            text: vec![0; LONGEST_BUFFER],
            compiled: [0; 12],
            longest: 0,
            answers: [0; 12],
            own_length: 0,
            length_0: 0,
            differ: 0,
        }
    }

    /// The format in a place of so many bytes: 5, 2, 4, or its stored form; and no other byte changed.
    pub fn try_compile(&mut self, format: &[u8], room: usize) {
        let form = form_of(format).map(|form| form.bytes());
        let want = match form {
            _ if format.len() > LONGEST_FORMAT || room > LONGEST_BUFFER => Err(INPUT_TOO_LONG),
            None => Err(INVALID_FORMAT_STRING),
            Some(bytes) if bytes.len() > room => Err(WRITE_ZERO),
            Some(bytes) => Ok(bytes),
        };
        let mut place = self.lender.lend(room);
        let got = match self.exact {
            true => stored_library::compile(&format.to_vec(), place.bytes()),
            false => stored_library::compile(format, place.bytes()),
        };
        self.compiled[want.as_ref().err().map_or(0, |&refusal| refusal as usize)] += 1;
        let form = want.as_ref().map_or(&[][..], |bytes| bytes);
        self.longest = self.longest.max(form.len());
        let wanted = want.as_ref().map(Vec::len).map_err(|&refusal| refusal);
        let mut left = self.lender.marks(room).to_vec();
        left[..form.len()].copy_from_slice(form);
        let fault = answer_fault(got, wanted)
            .or_else(|| self.lender.fault("place of the stored form", &place, &left));
        self.count(fault, || {
            format!("compile {} in {room} bytes", encoded(format))
        });
    }

    /// A stored form that the format was compiled to, with the format's length: as the format does.
    pub fn try_own(&mut self, case: &Case, stored: &[u8]) {
        let run = Run {
            stored,
            length: case.format.len(),
            zone: case.zone,
            record: case.record,
            room: case.room,
        };
        let want = self.try_run(&run);
        self.own_length += 1;
        let mut buffer = self.lender.marks(case.room).to_vec();
        let direct = library::format(case.format, case.zone, case.record, &mut buffer);
        let mut fault = answer_fault(direct, want)
            .or_else(|| self.text_fault(&buffer, want))
            .map(|fault| format!("the whole-format entry: {fault}"));
        if want != Err(INPUT_TOO_LONG) {
            let time = case.record.with_zone(case.zone);
            let judged = deviated::strftime(&time, case.format, &mut buffer).map_err(u32::from);
            let same = judged == want && self.text_fault(&buffer, want).is_none();
            fault = fault.or((!same).then(|| format!("the judge: {judged:?}, wanted {want:?}")));
        }
        self.count(fault, || described(&run));
    }

    /// Any bytes, and any length.
    pub fn try_any(&mut self, run: &Run) {
        let _ = self.try_run(run);
    }

    /// Gives what was wanted; its text is kept.
    fn try_run(&mut self, run: &Run) -> Result<usize, u32> {
        let want = self.wanted(run);
        let mut stored = self.lender.lend_copy(run.stored);
        let mut buffer = self.lender.lend(run.room);
        let got = stored_library::format_stored(
            stored.bytes(),
            run.length,
            &run.zone.to_vec(),
            run.record,
            buffer.bytes(),
        );
        self.answers[want.err().unwrap_or(0) as usize] += 1;
        self.length_0 += u64::from(run.length == 0);
        let mut left = self.lender.marks(run.room).to_vec();
        let end = want.unwrap_or(0);
        left[..end].copy_from_slice(&self.text[..end]);
        let fault = answer_fault(got, want)
            .or_else(|| self.lender.fault("buffer", &buffer, &left))
            .or_else(|| self.lender.fault("stored form", &stored, run.stored));
        self.count(fault, || described(run));
        want
    }

    fn wanted(&mut self, run: &Run) -> Result<usize, u32> {
        let too_long = run.length > LONGEST_FORMAT
            || run.zone.len() > LONGEST_ZONE
            || run.room > LONGEST_BUFFER;
        if too_long {
            return Err(INPUT_TOO_LONG);
        }
        let format = format_of(run.stored).ok_or(BAD_STORED)?;
        let time = run.record.with_zone(run.zone);
        let buffer = &mut self.text[..run.room];
        limited::strftime_by(run.length, &time, &format, buffer).map_err(u32::from)
    }

    /// The text that was wanted last, in front of this buffer.
    fn text_fault(&self, buffer: &[u8], want: Result<usize, u32>) -> Option<String> {
        let end = want.unwrap_or(0);
        (buffer[..end] != self.text[..end]).then(|| String::from("another text"))
    }

    fn count(&mut self, fault: Option<String>, of: impl Fn() -> String) {
        if let Some(fault) = fault {
            self.differ += 1;
            if self.differ == 1 {
                println!("the first that differs:\n{}\n{fault}", of());
            }
        }
    }

    /// How many stored forms were run.
    pub fn run(&self) -> u64 {
        self.answers.iter().sum()
    }

    /// Prints the counts; true if no case differs.
    pub fn report(&self) -> bool {
        for (answer, count) in self.compiled.iter().enumerate() {
            if *count != 0 {
                println!("compiled, answer {answer}: {count}");
            }
        }
        println!("the longest stored form: {} bytes", self.longest);
        for (answer, count) in self.answers.iter().enumerate() {
            if *count != 0 {
                println!("run, answer {answer}: {count}");
            }
        }
        println!(
            "run with the format's own length: {}, beside the whole-format entry and the judge",
            self.own_length
        );
        println!("run with length 0: {}", self.length_0);
        let compiled: u64 = self.compiled.iter().sum();
        println!(
            "{compiled} compiled, {} run, {} differ",
            self.run(),
            self.differ
        );
        self.differ == 0
    }
}

fn answer_fault(got: Answer, want: Result<usize, u32>) -> Option<String> {
    let wanted = (want.err().unwrap_or(0), want.unwrap_or(0));
    let found = (got.refusal, got.length as usize);
    (found != wanted).then(|| format!("answer {found:?}, wanted {wanted:?}"))
}

fn described(run: &Run) -> String {
    let case = Case {
        format: run.stored,
        zone: run.zone,
        record: run.record,
        room: run.room,
    };
    format!("length {}, stored as {}", run.length, case.line())
}
