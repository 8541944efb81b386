//! Tries sizes: each is measured with the judge, and stamps are made in buffers of just that length.

use crate::library::{self, Answer, FlatRecord, LONGEST_BUFFER, LONGEST_FORMAT, LONGEST_ZONE};
use crate::line::encoded;
use crate::lot::Lot;
use crate::reading::ends_inside;
use crate::record::strftime;
use crate::records::{any_record, other_zone, printable_zone};

const IN_RANGE: usize = 20;
const OUT_OF_RANGE: usize = 10;

const INVALID_TIME: u32 = 1;
const INVALID_FORMAT_STRING: u32 = 2;
const WRITE_ZERO: u32 = 4;
const INPUT_TOO_LONG: u32 = 5;
const NO_BUFFER: u32 = 6;

extern "C" {
    fn gs_size(format: *const u8, format_len: usize, longest_zone: usize) -> Answer;
}

/// A length, or the number of a refusal.
pub type Told = Result<usize, u32>;

fn told(answer: Answer) -> Told {
    match answer.refusal {
        0 => Ok(answer.length as usize),
        refusal => Err(refusal),
    }
}

/// What the entry is asked.
#[derive(Clone, Copy)]
pub struct Asked<'a> {
    pub format: &'a [u8],
    pub longest: usize,
}

impl Asked<'_> {
    fn answer(&self) -> Answer {
        // SAFETY: the pointer has the length of its slice beside it.
        unsafe { gs_size(self.format.as_ptr(), self.format.len(), self.longest) }
    }
}

/// The record that is longest under every directive at once, but for the month.
fn witness(month: u8) -> FlatRecord {
    FlatRecord {
        year: i32::MIN,
        month,
        day: 28,
        hour: 22,
        minute: 59,
        second: 59,
        nanoseconds: 0,
        day_of_week: 3,
        day_of_year: 200,
        to_int: i64::MIN,
        is_utc: 0,
        utc_offset: i32::MIN,
    }
}

const MONTHS_OF_WITNESSES: [u8; 2] = [9, 12];

pub struct Sizing {
    buffer: Vec<u8>,
    sized: u64,
    refused: [u64; 7],
    stamps: u64,
    faults: u64,
}

impl Sizing {
    pub fn new() -> Self {
        Sizing {
            buffer: vec![0; LONGEST_BUFFER],
            sized: 0,
            refused: [0; 7],
            stamps: 0,
            faults: 0,
        }
    }

    /// Counts a fault, and prints the first.
    fn hold(&mut self, holds: bool, asked: Asked, fault: impl Fn() -> String) {
        if holds {
            return;
        }
        self.faults += 1;
        if self.faults == 1 {
            let format = encoded(asked.format);
            println!(
                "the first fault: format {format}, longest zone name {}:",
                asked.longest
            );
            println!("{}", fault());
        }
    }

    fn judge(&mut self, asked: Asked, zone: &[u8], record: &FlatRecord, room: usize) -> Told {
        let buffer = &mut self.buffer[..room];
        strftime(&record.with_zone(zone), asked.format, buffer).map_err(u32::from)
    }

    fn library(&mut self, asked: Asked, zone: &[u8], record: &FlatRecord, room: usize) -> Told {
        let buffer = &mut self.buffer[..room];
        told(library::format(asked.format, zone, *record, buffer))
    }

    pub fn expect(&mut self, asked: Asked, want: Told) {
        let answer = asked.answer();
        let got = told(answer);
        self.hold(got == want, asked, || format!("{got:?}, wanted {want:?}"));
        let no_size = got.is_ok() || answer.length == 0;
        self.hold(no_size, asked, || {
            format!("{got:?} with size {}", answer.length)
        });
    }

    pub fn try_format(&mut self, lot: &mut Lot, asked: Asked) {
        let want = self.wanted(asked);
        self.expect(asked, want);
        match want {
            Ok(length) => {
                self.sized += 1;
                self.reached(asked, length);
                self.enough(lot, asked, length);
            }
            Err(refusal) => self.refused[refusal as usize] += 1,
        }
    }

    /// By 01's order: 5, then 2, then 6. The length is that of the witnesses' texts by the judge.
    fn wanted(&mut self, asked: Asked) -> Told {
        if asked.format.len() > LONGEST_FORMAT || asked.longest > LONGEST_ZONE {
            return Err(INPUT_TOO_LONG);
        }
        let zone = vec![b'x'; asked.longest];
        let texts = MONTHS_OF_WITNESSES
            .map(|month| self.judge(asked, &zone, &witness(month), LONGEST_BUFFER));
        let cut = ends_inside(asked.format, |_| ());
        // Where the judge comes to the end of the format, it says how that ends.
        for text in texts {
            let read = match text {
                Ok(_) => !cut,
                Err(INVALID_FORMAT_STRING) => cut,
                Err(_) => true,
            };
            self.hold(read, asked, || String::from("reading.rs is wrong"));
        }
        match texts {
            _ if cut => Err(INVALID_FORMAT_STRING),
            [Ok(september), Ok(december)] => Ok(september.max(december)),
            _ => Err(NO_BUFFER),
        }
    }

    /// Both witnesses fit; one needs every byte.
    fn reached(&mut self, asked: Asked, length: usize) {
        let zone = vec![b'x'; asked.longest];
        let full =
            MONTHS_OF_WITNESSES.map(|month| self.library(asked, &zone, &witness(month), length));
        let fit = full.iter().all(Result::is_ok) && full.contains(&Ok(length));
        self.hold(fit, asked, || {
            format!("the witnesses in {length} bytes: {full:?}")
        });
        if length > 0 {
            let room = length - 1;
            let short =
                MONTHS_OF_WITNESSES.map(|month| self.library(asked, &zone, &witness(month), room));
            let reached = short.contains(&Err(WRITE_ZERO));
            self.hold(reached, asked, || {
                format!("the witnesses in {room} bytes: {short:?}")
            });
        }
    }

    /// Every record in range has its text in that length, and any other its text or InvalidTime.
    fn enough(&mut self, lot: &mut Lot, asked: Asked, length: usize) {
        let zone = vec![b'x'; asked.longest];
        for month in 1..=12 {
            self.fits(asked, &zone, &witness(month), length, false);
        }
        for _ in 0..IN_RANGE {
            let zone = printable_zone(lot, asked.longest);
            self.fits(asked, &zone, &any_record(lot, 0), length, false);
        }
        for _ in 0..OUT_OF_RANGE {
            let zone = if lot.once_in(2) {
                other_zone(lot, asked.longest)
            } else {
                printable_zone(lot, asked.longest)
            };
            self.fits(asked, &zone, &any_record(lot, 3), length, true);
        }
    }

    fn fits(&mut self, asked: Asked, zone: &[u8], record: &FlatRecord, room: usize, bad: bool) {
        self.stamps += 1;
        for answer in [
            self.judge(asked, zone, record, room),
            self.library(asked, zone, record, room),
        ] {
            let fits = answer.is_ok() || bad && answer == Err(INVALID_TIME);
            self.hold(fits, asked, || {
                let (year, month) = (record.year, record.month);
                format!("{answer:?} in {room} bytes for a record of year {year}, month {month}")
            });
        }
    }

    /// Prints the counts; true if there is no fault.
    pub fn report(&self) -> bool {
        println!("formats with a size: {}", self.sized);
        for refusal in [2, 5, 6] {
            println!("formats with refusal {refusal}: {}", self.refused[refusal]);
        }
        println!("stamps in buffers of just that size: {}", self.stamps);
        println!("{} faults", self.faults);
        self.faults == 0
    }
}
