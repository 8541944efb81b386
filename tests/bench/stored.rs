//! A format that is compiled once and run from its stored form.

use crate::library::{Answer, FlatRecord};
use crate::stored_library::{compile, format_stored};
use crate::{Read, Times, STAMPS, ZONE};
use std::hint::black_box;

/// The longest stored form of any format.
const LONGEST_STORED: usize = 22_534;

pub fn compiled(format: &[u8]) -> Vec<u8> {
    let mut stored = vec![0; LONGEST_STORED];
    let answer = compile(format, &mut stored);
    stored.truncate(answer.length as usize);
    stored
}

pub fn run(read: &Read, record: FlatRecord, line: &mut [u8]) -> Answer {
    format_stored(&read.stored, read.format.len(), ZONE, record, line)
}

/// The time of compiling, which is paid once.
pub fn print_times(formats: &[(&str, Read)], windows: usize) {
    println!("compiling, in ns a format, and the bytes of the stored form");
    let mut stored = vec![0; LONGEST_STORED];
    for (name, read) in formats {
        let mut times = Times::new();
        for _ in 0..windows {
            times.window(|| {
                for _ in 0..STAMPS {
                    black_box(compile(black_box(&read.format), &mut stored));
                }
            });
        }
        println!(
            "    {:8.1} {:8.1} {:8.1} {:8}   {name}",
            times.best(),
            times.median(),
            times.mean(),
            read.stored.len()
        );
    }
}
