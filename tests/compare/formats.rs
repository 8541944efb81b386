//! Formats drawn by lot, and meant to be nasty.

use crate::library::{LONGEST_BUFFER, LONGEST_FORMAT};
use crate::lot::Lot;

pub const LETTERS: &[u8] = b"%ABCDFGHILMNPRSTUVWXYZabcdeghjklmnprstuvwxyz";

const LIMIT_OF_A_BYTE: usize = 524_288;

/// The library writes a text of at most this length to a place of its own first.
const SCRATCH: usize = 192;

/// A number's width above this is padded apart.
const WIDEST_NUMBER: usize = 65_535;

pub fn any_format(lot: &mut Lot) -> Vec<u8> {
    let mut format = Vec::new();
    match lot.below(64) {
        0..=38 => pieces(lot, &mut format, 7),
        39..=46 => soup(lot, &mut format),
        47..=48 => any_bytes(lot, &mut format),
        49..=57 => near_the_limit(lot, &mut format),
        58..=61 => text_near(lot, &mut format, SCRATCH + 8),
        62 => text_near(lot, &mut format, LONGEST_BUFFER + 8),
        _ => near_the_longest_format(lot, &mut format),
    }
    if lot.once_in(12) {
        cut(lot, &mut format);
    }
    format
}

pub fn pieces(lot: &mut Lot, format: &mut Vec<u8>, most: usize) {
    for _ in 0..lot.below(most + 1) {
        if lot.once_in(4) {
            literal(lot, format);
        } else {
            directive(lot, format);
        }
    }
}

fn literal(lot: &mut Lot, format: &mut Vec<u8>) {
    const TEXTS: [&[u8]; 12] = [
        b"a",
        b" ",
        b"-",
        b":",
        b"z",
        b"0",
        b"Y",
        b"\\",
        b"stamp",
        b"\0",
        b"\x80",
        b"\xc3\xa9",
    ];
    format.extend_from_slice(lot.one_of(&TEXTS));
}

fn directive(lot: &mut Lot, format: &mut Vec<u8>) {
    format.push(b'%');
    flags(lot, format);
    width(lot, format);
    ending(lot, format);
}

pub fn flags(lot: &mut Lot, format: &mut Vec<u8>) {
    while lot.below(5) < 2 {
        format.push(lot.one_of(b"-_0^#"));
    }
}

fn width(lot: &mut Lot, format: &mut Vec<u8>) {
    const EDGES: [u64; 20] = [
        191,
        192,
        193,
        1023,
        1024,
        1025,
        65_534,
        65_535,
        65_536,
        65_537,
        524_288,
        1_048_577,
        9_999_999,
        2_147_483_646,
        2_147_483_647,
        2_147_483_648,
        4_294_967_295,
        4_294_967_301,
        u64::MAX - 1,
        u64::MAX,
    ];
    let width = match lot.below(64) {
        0..=31 => return,
        32..=58 => 1 + lot.any() % 30,
        59..=61 => lot.one_of(&EDGES),
        62 => 1 + lot.any() % 300,
        _ => return format.extend_from_slice(b"18446744073709551623"),
    };
    format.extend_from_slice(width.to_string().as_bytes());
}

/// Modifier, colons and letter, or something in their place.
pub fn ending(lot: &mut Lot, format: &mut Vec<u8>) {
    if lot.once_in(12) {
        format.push(lot.one_of(b"EO"));
    }
    match lot.below(32) {
        0..=25 => format.push(lot.one_of(LETTERS)),
        26..=28 => {
            format.extend(std::iter::repeat_n(b':', lot.below(5)));
            format.push(lot.one_of(b"zzzzzY%"));
        }
        29 => format.push(lot.any() as u8 % 128),
        30 => format.push(lot.any() as u8 | 128),
        _ => {}
    }
}

fn soup(lot: &mut Lot, format: &mut Vec<u8>) {
    const BYTES: &[u8] = b"%%%%%%%%---__00^^##1234567890:::EEOOzzYdHAcNLsjCxyQ \x80\xff";
    for _ in 0..lot.below(40) {
        format.push(lot.one_of(BYTES));
    }
}

fn any_bytes(lot: &mut Lot, format: &mut Vec<u8>) {
    for _ in 0..lot.below(24) {
        format.push(if lot.once_in(3) {
            b'%'
        } else {
            lot.any() as u8
        });
    }
}

/// A pad that ends near the size limit, which goes by the length of the whole format.
fn near_the_limit(lot: &mut Lot, format: &mut Vec<u8>) {
    let before = lot.below(12);
    let mut after = lot.below(4);
    if lot.once_in(8) {
        after += lot.below(LONGEST_FORMAT - 64);
    }
    let (mut marks, mut end) = (Vec::new(), Vec::new());
    flags(lot, &mut marks);
    ending(lot, &mut end);
    let apart = if lot.once_in(2) { WIDEST_NUMBER } else { 0 };
    let shift = lot.below(64);
    for digits in 7..=10 {
        let length = before + 1 + marks.len() + digits + end.len() + after;
        let width = length * LIMIT_OF_A_BYTE + apart + shift - before - 24;
        let width = width.to_string();
        if width.len() == digits {
            format.resize(before, b'x');
            format.push(b'%');
            format.extend_from_slice(&marks);
            format.extend_from_slice(width.as_bytes());
            format.extend_from_slice(&end);
            format.resize(length, b'y');
            return;
        }
    }
}

/// One text near this length, among others that are mostly short.
fn text_near(lot: &mut Lot, format: &mut Vec<u8>, length: usize) {
    pieces(lot, format, 3);
    format.push(b'%');
    flags(lot, format);
    let width = length - lot.below(64);
    format.extend_from_slice(width.to_string().as_bytes());
    format.push(lot.one_of(LETTERS));
    pieces(lot, format, 3);
}

fn near_the_longest_format(lot: &mut Lot, format: &mut Vec<u8>) {
    let length = LONGEST_FORMAT + 2 - lot.below(6);
    while format.len() < length {
        match lot.below(8) {
            0 => format.resize(format.len() + lot.below(400), b'x'),
            1 => directive(lot, format),
            _ => {
                format.push(b'%');
                flags(lot, format);
                format.push(lot.one_of(LETTERS));
            }
        }
    }
    format.truncate(length);
}

pub fn cut(lot: &mut Lot, format: &mut Vec<u8>) {
    format.push(b'%');
    flags(lot, format);
    width(lot, format);
    if lot.once_in(4) {
        format.push(lot.one_of(b"EO:"));
    }
}
