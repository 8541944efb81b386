//! Blocks to lend: within guard bytes, or of just their lengths, so that valgrind sees a byte outside of them.

use crate::library::LONGEST_BUFFER;
use crate::lot::Lot;

const GUARD: usize = 64;
const LONGEST_BLOCK: usize = 5 * LONGEST_BUFFER;

pub struct Lender {
    guard: usize,
    /// What stands in a block, and around it, before it is lent.
    marks: Vec<u8>,
}

pub struct Lent {
    guard: usize,
    around: Vec<u8>,
}

impl Lent {
    pub fn bytes(&mut self) -> &mut [u8] {
        let end = self.around.len() - self.guard;
        &mut self.around[self.guard..end]
    }
}

impl Lender {
    pub fn new(exact: bool) -> Self {
        let mut lot = Lot::new(0);
        let length = GUARD + LONGEST_BLOCK + GUARD;
        Lender {
            guard: if exact { 0 } else { GUARD },
            marks: (0..length).map(|_| lot.any() as u8).collect(),
        }
    }

    pub fn lend(&self, length: usize) -> Lent {
        let guard = self.guard;
        Lent {
            guard,
            around: self.marks[GUARD - guard..GUARD + length + guard].to_vec(),
        }
    }

    /// A block that holds these bytes.
    pub fn lend_copy(&self, bytes: &[u8]) -> Lent {
        let mut lent = self.lend(bytes.len());
        lent.bytes().copy_from_slice(bytes);
        lent
    }

    /// What stands in a block that is lent.
    pub fn marks(&self, length: usize) -> &[u8] {
        &self.marks[GUARD..GUARD + length]
    }

    /// The first byte, from the block's start, that isn't as it should be.
    pub fn fault(&self, name: &str, lent: &Lent, want: &[u8]) -> Option<String> {
        let end = lent.guard + want.len();
        let marks = &self.marks[GUARD - lent.guard..];
        let found = [
            &lent.around[..lent.guard],
            &lent.around[lent.guard..end],
            &lent.around[end..],
        ];
        let wanted = [&marks[..lent.guard], want, &marks[end..end + lent.guard]];
        if found == wanted {
            return None;
        }
        let place = lent
            .around
            .iter()
            .zip(wanted.concat())
            .position(|(a, b)| *a != b)?;
        let byte = lent.around[place];
        let place = place as i64 - lent.guard as i64;
        Some(format!("byte {place} of the {name} is {byte}"))
    }
}
