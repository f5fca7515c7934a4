//! Random calls of programs with many Ifs and RepeatExts, for what the values that the box hands in choose and count (L14).

use super::calls::{self, Sort};
use super::{grow, limits};

/// As many lines as asked for, the same for the same seed.
pub fn lines(cases: usize, seed: u64) -> impl Iterator<Item = String> {
    calls::of(Sort { weights: [3, 4, 2, 1, 88, 1, 1, 0], program: grow::asking, limit: limits::near }, cases, seed)
}
