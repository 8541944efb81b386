//! Compares the library's runs with what a course of calls asks, call by call: numbers, answer, store and buffer, and
//! guard bytes around both. A format that arrives whole is compared with the whole-format entry, with what the judge
//! leaves in his slice, and where no deviation is touched with what the original as it stands leaves.

use crate::course::{Call, Course};
use crate::deviated;
use crate::deviations::DEVIATIONS;
use crate::judge::Case;
use crate::lent::{Lender, Lent};
use crate::library::{self, LONGEST_FORMAT};
use crate::line::encoded;
use crate::lot::Lot;
use crate::record;
use crate::runs_library::{self, Runs};
use crate::stream::{left_by, Left, Stream};

const REFUSALS: [u32; 10] = [0, 1, 2, 3, 4, 5, 6, 7, 10, 11];

pub struct ByRuns {
    lender: Lender,
    answers: [u64; 11],
    calls: u64,
    after_refusals: u64,
    long_pending: u64,
    longest_pending: usize,
    whole: u64,
    standing: u64,
    forged: u64,
    differ: u64,
}

impl ByRuns {
    pub fn new(exact: bool) -> Self {
        ByRuns {
            lender: Lender::new(exact),
            answers: [0; 11],
            calls: 0,
            after_refusals: 0,
            long_pending: 0,
            longest_pending: 0,
            whole: 0,
            standing: 0,
            forged: 0,
            differ: 0,
        }
    }

    /// Store and buffer.
    fn lend(&self, course: &Course) -> (Lent, Lent) {
        (
            self.lender.lend(course.store),
            self.lender.lend(course.case.room),
        )
    }

    pub fn try_course(&mut self, course: &Course) {
        let case = &course.case;
        let (mut store, mut buffer) = self.lend(course);
        let mut want = Stream::start(*case, course.total, store.bytes(), buffer.bytes());
        let mut runs = runs_library::start(course.total, case.zone, store.bytes(), buffer.bytes());
        let mut fault = self.fault(&want, runs, &store, &buffer);
        for (at, call) in course.calls.iter().enumerate() {
            if fault.is_some() {
                break;
            }
            match call {
                Call::Run(bytes) => {
                    want.run(bytes);
                    runs = runs_library::run(
                        runs,
                        bytes,
                        case.zone,
                        case.record,
                        store.bytes(),
                        buffer.bytes(),
                    );
                }
                Call::End => {
                    want.end();
                    runs = runs_library::end(
                        runs,
                        case.zone,
                        case.record,
                        store.bytes(),
                        buffer.bytes(),
                    );
                }
            }
            self.longest_pending = self.longest_pending.max(runs.kept);
            self.long_pending += u64::from(runs.kept > 64);
            fault = self
                .fault(&want, runs, &store, &buffer)
                .map(|it| format!("call {}: {it}", at + 1));
        }
        self.answers[want.numbers().number.min(10)] += 1;
        if course.is_right() {
            fault = fault.or_else(|| self.whole_fault(case, &want));
        }
        self.count(fault, || described(course));
    }

    fn count(&mut self, fault: Option<String>, of: impl Fn() -> String) {
        if let Some(fault) = fault {
            self.differ += 1;
            if self.differ == 1 {
                println!("the first that differs:\n{}\n{fault}", of());
            }
        }
    }

    /// The first thing that is not as it should be after a call.
    fn fault(&mut self, want: &Stream, runs: Runs, store: &Lent, buffer: &Lent) -> Option<String> {
        self.calls += 1;
        self.after_refusals += u64::from(want.numbers().number != 0);
        let answer = runs_library::answer(runs);
        if runs != want.numbers() || answer != want.answer() {
            return Some(format!(
                "{runs:?}, {answer:?}, wanted {:?}, {:?}",
                want.numbers(),
                want.answer()
            ));
        }
        for (name, block, wanted) in [
            ("buffer", buffer, &want.buffer),
            ("store", store, &want.store),
        ] {
            let fault = self.lender.fault(name, block, wanted);
            if fault.is_some() {
                return fault;
            }
        }
        None
    }

    /// The format at once: by the entry, by the judge, and by the original as it stands.
    fn whole_fault(&mut self, case: &Case, want: &Stream) -> Option<String> {
        let (numbers, answer) = (want.numbers(), want.answer());
        let mut buffer = self.lender.marks(case.room).to_vec();
        let entry = library::format(case.format, case.zone, case.record, &mut buffer);
        if entry.refusal != answer.refusal || entry.length as usize != answer.length {
            return Some(format!(
                "the whole-format entry answers {} {}",
                entry.refusal, entry.length
            ));
        }
        if answer.refusal == 0 && buffer != want.buffer {
            return Some(String::from("the whole-format entry gives another text"));
        }
        self.whole += 1;
        if case.format.len() > LONGEST_FORMAT || answer.refusal == 5 {
            return None;
        }
        let time = case.record.with_zone(case.zone);
        let told = if answer.refusal == 0 {
            Ok(numbers.written)
        } else {
            Err(answer.refusal as u8)
        };
        let same = |left: Left, buffer: &[u8]| {
            left.answer == told
                && (told.is_ok() || left.reach == numbers.written)
                && buffer == want.buffer
        };
        let mut slice = self.lender.marks(case.room).to_vec();
        let left = left_by(
            |place| deviated::strftime(&time, case.format, place),
            &mut slice,
        );
        if !same(left, &slice) {
            return Some(String::from("the judge leaves something else"));
        }
        if DEVIATIONS
            .iter()
            .any(|deviation| (deviation.touched.hold)(case))
        {
            return None;
        }
        self.standing += 1;
        let mut slice = self.lender.marks(case.room).to_vec();
        let left = left_by(
            |place| record::strftime(&time, case.format, place),
            &mut slice,
        );
        (!same(left, &slice))
            .then(|| String::from("the original as it stands leaves something else"))
    }

    /// Numbers that no call has given: an answer of the table, which later calls repeat, and no byte outside of what is
    /// lent.
    pub fn try_forged(&mut self, lot: &mut Lot, course: &Course) {
        let case = &course.case;
        let (mut store, mut buffer) = self.lend(course);
        let forged = forged_runs(lot, course);
        let mut runs = forged;
        let mut fault = None;
        for call in &course.calls {
            let before = runs_library::answer(runs);
            runs = match call {
                Call::Run(bytes) => runs_library::run(
                    runs,
                    bytes,
                    case.zone,
                    case.record,
                    store.bytes(),
                    buffer.bytes(),
                ),
                Call::End => {
                    runs_library::end(runs, case.zone, case.record, store.bytes(), buffer.bytes())
                }
            };
            let after = runs_library::answer(runs);
            let repeated = before.more == 1 || after == before;
            if !repeated || !REFUSALS.contains(&after.refusal) {
                fault = Some(format!("{after:?} after {before:?}"));
            }
        }
        self.forged += 1;
        for (name, block) in [("buffer", &mut buffer), ("store", &mut store)] {
            let within = block.bytes().to_vec();
            fault = self.lender.fault(name, block, &within).or(fault);
        }
        self.count(fault, || format!("{forged:?}\n{}", described(course)));
    }

    /// Prints the counts; true if no course differs.
    pub fn report(&self) -> bool {
        for (answer, count) in self.answers.iter().enumerate() {
            if *count != 0 {
                println!("answer {answer}: {count}");
            }
        }
        println!(
            "calls, each with its numbers, answer, store and buffer: {}",
            self.calls
        );
        println!("buffers compared after a refusal: {}", self.after_refusals);
        println!(
            "calls that left more than 64 bytes of a directive pending: {}, the most {}",
            self.long_pending, self.longest_pending
        );
        println!(
            "formats that came whole: {}, beside the whole-format entry and the judge's slice; by the original as it stands too: {}",
            self.whole, self.standing
        );
        println!(
            "courses from numbers that no call has given: {}",
            self.forged
        );
        let formats: u64 = self.answers.iter().sum();
        println!("{formats} formats, {} differ", self.differ);
        self.differ == 0
    }
}

fn forged_runs(lot: &mut Lot, course: &Course) -> Runs {
    let mut number = |near: usize| match lot.below(6) {
        0 => 0,
        1 => near + lot.below(4),
        2 => near.saturating_sub(lot.below(4)),
        3 => lot.one_of(&[1, 4, 32, 4096, 65_536, usize::MAX - 32, usize::MAX]),
        4 => lot.any() as usize,
        _ => lot.below(near + 1),
    };
    Runs {
        total: number(course.total),
        passed: number(course.total),
        kept: number(course.store),
        written: number(course.case.room),
        number: if number(8) < 6 { 0 } else { number(10) },
        over: if number(8) < 7 { 0 } else { number(255) as u8 },
    }
}

fn described(course: &Course) -> String {
    let calls: Vec<String> = course
        .calls
        .iter()
        .map(|call| match call {
            Call::Run(bytes) => encoded(bytes),
            Call::End => String::from("end"),
        })
        .collect();
    format!(
        "{}\ntotal {}, store {}: {}",
        course.case.line(),
        course.total,
        course.store,
        calls.join(" ")
    )
}
