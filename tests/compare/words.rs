//! The words of a command line: [--exact] SEED COUNT.

use crate::lot::seed_and_count;

pub struct Words {
    /// Lend blocks of just the lengths asked for.
    pub exact: bool,
    pub seed: u64,
    pub count: u64,
}

/// Nothing, and what should have been said on standard error, where the words are others.
pub fn words_of(program: &str) -> Option<Words> {
    let mut words: Vec<String> = std::env::args().skip(1).collect();
    let exact = words.first().is_some_and(|word| word == "--exact");
    if exact {
        words.remove(0);
    }
    let Some((seed, count)) = seed_and_count(&words) else {
        eprintln!("usage: {program} [--exact] SEED COUNT");
        eprintln!("--exact: by lot alone, each in blocks of just its lengths");
        return None;
    };
    Some(Words { exact, seed, count })
}
