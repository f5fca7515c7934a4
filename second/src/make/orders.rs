//! Random instants of programs with many branches, for the orders in which these can run (L6).

use super::calls::{self, Sort};
use super::{grow, limits};

/// As many lines as asked for, the same for the same seed.
pub fn lines(cases: usize, seed: u64) -> impl Iterator<Item = String> {
    calls::of(Sort { weights: [0, 0, 0, 0, 1, 0, 0, 0], program: grow::woven, limit: limits::near }, cases, seed)
}
