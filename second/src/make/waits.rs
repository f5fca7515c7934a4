//! Random instants of programs with many tests, for what the first suspended one waits for (L1).

use super::calls::{self, Sort};
use super::{grow, limits};

/// As many lines as asked for, the same for the same seed.
pub fn lines(cases: usize, seed: u64) -> impl Iterator<Item = String> {
    calls::of(Sort { weights: [0, 0, 0, 0, 1, 0, 0, 0], program: grow::waiting, limit: limits::near }, cases, seed)
}
