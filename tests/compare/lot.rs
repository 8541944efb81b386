//! Numbers drawn by SplitMix64: the same ones for the same seed.

/// The words SEED COUNT of a command line.
pub fn seed_and_count(words: &[String]) -> Option<(u64, u64)> {
    let [seed, count] = words else {
        return None;
    };
    Some((seed.parse().ok()?, count.parse().ok()?))
}

pub struct Lot {
    state: u64,
}

impl Lot {
    pub fn new(seed: u64) -> Self {
        Lot { state: seed }
    }

    pub fn any(&mut self) -> u64 {
        self.state = self.state.wrapping_add(0x9E37_79B9_7F4A_7C15);
        let mut z = self.state;
        z = (z ^ (z >> 30)).wrapping_mul(0xBF58_476D_1CE4_E5B9);
        z = (z ^ (z >> 27)).wrapping_mul(0x94D0_49BB_1331_11EB);
        z ^ (z >> 31)
    }

    pub fn below(&mut self, n: usize) -> usize {
        (self.any() % n as u64) as usize
    }

    /// From `low` to `high`, both included.
    pub fn within(&mut self, low: i64, high: i64) -> i64 {
        low + (self.any() % (high - low + 1) as u64) as i64
    }

    /// True once in `n` times.
    pub fn once_in(&mut self, n: usize) -> bool {
        self.below(n) == 0
    }

    pub fn one_of<T: Copy>(&mut self, things: &[T]) -> T {
        things[self.below(things.len())]
    }
}
