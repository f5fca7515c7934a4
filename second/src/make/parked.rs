//! Random calls of programs with many Freezables: what is parked, stores of every kind, and pieces taken, whose tables run on (L8).

use super::calls::{self, Sort};
use super::{grow, limits};

/// As many lines as asked for, the same for the same seed.
pub fn lines(cases: usize, seed: u64) -> impl Iterator<Item = String> {
    calls::of(Sort { weights: [3, 3, 2, 1, 68, 1, 2, 20], program: grow::freezing, limit: limits::near }, cases, seed)
}
