//! Stored forms drawn by lot, and meant to be nasty.

use crate::form::{step, Form, WIDEST};
use crate::formats::LETTERS;
use crate::lot::Lot;

/// What was done to a form, and how many were drawn so.
pub struct Sorts {
    pub counts: [(&'static str, u64); 5],
}

impl Sorts {
    pub fn new() -> Self {
        Sorts {
            counts: [
                "a byte changed",
                "cut",
                "lengthened",
                "any bytes",
                "sections drawn",
            ]
            .map(|sort| (sort, 0)),
        }
    }

    /// A real form spoilt, or one that no format was compiled to. Every byte of the real one gets its turn.
    pub fn draw(&mut self, lot: &mut Lot, real: &[u8], turn: usize) -> Vec<u8> {
        let sort = match lot.below(16) {
            0..=6 => 0,
            7 => 1,
            8 => 2,
            9..=10 => 3,
            _ => 4,
        };
        self.counts[sort].1 += 1;
        match sort {
            0 => changed(lot, real, turn),
            1 => real[..turn % real.len()].to_vec(),
            2 => lengthened(lot, real),
            3 => any_bytes(lot),
            _ => drawn(lot),
        }
    }
}

fn changed(lot: &mut Lot, real: &[u8], turn: usize) -> Vec<u8> {
    let mut form = real.to_vec();
    let byte = &mut form[turn % real.len()];
    *byte = match lot.below(4) {
        0 => byte.wrapping_add(1),
        1 => byte.wrapping_sub(1),
        2 => *byte ^ 1 << lot.below(8),
        _ => lot.any() as u8,
    };
    form
}

fn lengthened(lot: &mut Lot, real: &[u8]) -> Vec<u8> {
    let mut form = real.to_vec();
    for _ in 0..=lot.below(12) {
        let byte = lot.any() as u8;
        form.push(lot.one_of(&[0, 0, 1, byte]));
    }
    form
}

/// Small ones mostly, so that counts may agree.
fn any_bytes(lot: &mut Lot) -> Vec<u8> {
    let length = match lot.below(4) {
        0 => lot.below(300),
        1 => 6,
        _ => lot.below(24),
    };
    let mut form = Vec::new();
    for _ in 0..length {
        let byte = lot.any() as u8;
        let letter = lot.one_of(LETTERS);
        form.push(lot.one_of(&[0, 0, 0, 0, 1, 1, 2, byte, letter]));
    }
    form
}

/// Sections that mostly agree: literal bytes that no step writes, entries that none uses or several do, steps of length
/// 0; and once in a while something that is not taken.
fn drawn(lot: &mut Lot) -> Vec<u8> {
    let mut form = Form::default();
    let literals = many(lot, 12);
    form.literals = (0..literals)
        .map(|_| lot.one_of(b"ab%Y \0\x80\xff"))
        .collect();
    form.directives = (0..lot.below(6)).map(|_| any_entry(lot)).collect();
    let mut left = form.literals.len();
    for _ in 0..many(lot, 10) {
        let directives = form.directives.len();
        form.steps.push(any_step(lot, &mut left, directives));
    }
    let mut bytes = form.bytes();
    if lot.once_in(8) {
        off_by_one(lot, &form, &mut bytes);
    }
    bytes
}

/// Now and then as many as a count can say, or near it.
fn many(lot: &mut Lot, few: usize) -> usize {
    match lot.below(512) {
        0 => 65_535 - lot.below(2),
        1 => lot.below(6_000),
        _ => lot.below(few),
    }
}

fn any_step(lot: &mut Lot, left: &mut usize, directives: usize) -> [u8; 3] {
    if lot.once_in(48) {
        let any = lot.any();
        return match lot.below(4) {
            0 => step(lot.one_of(&[2, 3, 128, 255, any as u8]), lot.below(4)),
            1 => step(0, *left + 1 + lot.below(300)),
            2 => step(1, directives + lot.below(300)),
            _ => [any as u8, (any >> 8) as u8, (any >> 16) as u8],
        };
    }
    if directives == 0 || lot.once_in(3) {
        let length = lot.below(*left + 1).min(1 + lot.below(40));
        *left -= length;
        return step(0, length);
    }
    step(1, lot.below(directives))
}

fn any_entry(lot: &mut Lot) -> [u8; 8] {
    let any = lot.any() as u8;
    let code = match lot.below(24) {
        0..=2 => lot.one_of(&[1, 2, 3]),
        3 if lot.once_in(8) => lot.one_of(&[0, 4, b'E', b'O', b'Q', b'f', b'i', any]),
        _ => lot.one_of(LETTERS),
    };
    let padding = match lot.below(64) {
        0 => lot.one_of(&[3, 4, 255, any]),
        1..=20 => lot.below(3) as u8,
        _ => 0,
    };
    let flags = match lot.below(64) {
        0 => lot.one_of(&[8, 16, 128, 255, any]),
        1..=20 => lot.below(8) as u8,
        _ => 0,
    };
    let (present, width) = any_width(lot);
    let [a, b, c, d] = width.to_le_bytes();
    [code, padding, flags, present, a, b, c, d]
}

fn any_width(lot: &mut Lot) -> (u8, u32) {
    let any = lot.any();
    match lot.below(96) {
        0 => (0, lot.one_of(&[1, 256, 65_536, 16_777_216, any as u32])),
        1 => (1, lot.one_of(&[0, WIDEST + 1, u32::MAX])),
        2 => (lot.one_of(&[2, 128, 255]), lot.below(3) as u32),
        3 => (1, lot.one_of(&[WIDEST, WIDEST - 1, 65_535, 65_536, 65_537])),
        4..=6 => {
            let near = 524_288 * (1 + lot.below(4096));
            (1, (near + lot.below(40) - 20).min(WIDEST as usize) as u32)
        }
        7..=36 => (1, 1 + lot.below(40) as u32),
        37..=38 => (1, 1 + lot.below(300) as u32),
        _ => (0, 0),
    }
}

/// One of the three counts is one more or one less than it should be.
fn off_by_one(lot: &mut Lot, form: &Form, bytes: &mut [u8]) {
    let directives = 2 + form.literals.len();
    let steps = directives + 2 + 8 * form.directives.len();
    let at = lot.one_of(&[0, directives, steps]);
    let count = u16::from_le_bytes([bytes[at], bytes[at + 1]]);
    let other = if lot.once_in(2) {
        count.wrapping_add(1)
    } else {
        count.wrapping_sub(1)
    };
    bytes[at..at + 2].copy_from_slice(&other.to_le_bytes());
}
