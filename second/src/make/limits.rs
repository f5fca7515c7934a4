//! Tables at the limits of 01: depth, height, figures and numbers of records.

use super::draft::short::*;
use super::draft::{Cond, ConfigRecord, Draft, Records};
use super::grow;
use super::random::Random;

/// A program wrapped this many times, the outermost wrapping having number 0.
pub fn wrapped(times: usize, core: Draft, wrap: impl Fn(usize, Draft) -> Draft) -> Draft {
    (0..times).rev().fold(core, |inner, number| wrap(number, inner))
}

/// A condition under this many `not`s.
pub fn nots(times: usize, core: Cond) -> Cond {
    (0..times).fold(core, |inner, _| not(inner))
}

/// A flat program of exactly this many nodes.
pub fn broad(nodes: usize) -> Draft {
    match nodes {
        1 => stop(),
        2 => control(0, stop()),
        _ => {
            let first = (nodes - 1) / 2;
            par(broad(first), broad(nodes - 1 - first))
        }
    }
}

/// A program whose figure W is exactly this number, which is at least 1.
pub fn weighing(w: u128) -> Draft {
    if w == 1 {
        return nothing();
    }
    if w <= 65_536 {
        return repeat((w - 1) as u16, nothing());
    }
    if w < 65_538 {
        return seq(weighing(w - 2), nothing());
    }
    // 1 for Seq, 1 for each Repeat, and the two products.
    let (inner, over) = ((w - 3) / 65_535, (w - 3) % 65_535);
    seq(repeat(65_535, weighing(inner)), repeat(over as u16, nothing()))
}

/// A table of this many nodes and configurations, all good in themselves.
pub fn filled(nodes: usize, configs: usize, events: u16) -> Records {
    let mut records = Records::new(events, &broad(nodes));
    records.configs = vec![ConfigRecord::new(0, 0, 1); configs];
    records
}

/// A random table at or near some limit.
pub fn near(r: &mut Random) -> Records {
    match r.weigh(&[30, 30, 40]) {
        0 => deep(r),
        1 => tall(r),
        _ => heavy(r),
    }
}

/// A table of about the greatest depth, in varying forms.
fn deep(r: &mut Random) -> Records {
    let mut program = if r.chance(50) { nothing() } else { seq(stop(), nothing()) };
    for _ in 0..r.between(61, 65) {
        program = match r.below(12) {
            0 => seq(program, stop()),
            1 => seq(nothing(), program),
            2 => par(program, stop()),
            3 => par(stop(), program),
            4 => control(0, program),
            5 => local(1, program),
            6 => until(event(0), program, nothing()),
            7 => choose(15, program, nothing()),
            8 => choose(0, nothing(), program),
            9 => repeat_ext(3, 255, program),
            10 => freezable(0, program),
            _ => until(event(1), stop(), program),
        };
    }
    Records::sharing(2, &program)
}

/// A table with a configuration of about the greatest height.
fn tall(r: &mut Random) -> Records {
    let mut tower = event(0);
    for _ in 0..r.between(13, 17) {
        let side = grow::cond(r, 3, 3);
        tower = match r.below(5) {
            0 => and(tower, side),
            1 => and(side, tower),
            2 => or(tower, side),
            3 => or(side, tower),
            _ => not(tower),
        };
    }
    let before = wait(grow::cond(r, 3, 2));
    let mut records = Records::sharing(3, &par(before, wait(tower)));
    if r.chance(20) {
        // A record that is bad for another reason ends the height of those above it.
        let place = r.below(records.configs.len());
        records.configs[place].event ^= 128;
    }
    records
}

/// A leaf that weighs in one of the figures, and the figure's limit.
pub fn heavy_leaf(r: &mut Random) -> (Draft, usize) {
    match r.below(5) {
        0 => (generate(0), 4_094),
        1 => (atom(1), 4_096),
        2 => (nothing(), 65_535),
        // Pieces of 8, of 12 and of 20 bytes.
        3 => (freezable(0, stop()), 2_048),
        _ => {
            let body = if r.chance(50) { control(0, stop()) } else { par(stop(), seq(atom(1), stop())) };
            let limit = if matches!(body, Draft::Control(..)) { 1_365 } else { 682 };
            (freezable(0, body), limit)
        }
    }
}

/// A table with a figure near its limit.
fn heavy(r: &mut Random) -> Records {
    let (leaf, limit) = heavy_leaf(r);
    let count = r.between(limit / 2 - 2, limit / 2 + 2) as u16;
    let half = repeat(count, leaf.clone());
    let whole = repeat((limit - 2 + r.below(4)) as u16, leaf.clone());
    // A cap of at most 255 over what is left of the limit.
    let cap = *r.pick(&[1, 2, 3, 16, 254, 255]);
    let share = repeat(((limit + r.below(3)) / cap) as u16, leaf.clone());
    let program = match r.below(11) {
        0 => whole,
        8 => repeat_ext(r.below(16) as u16, cap as u16, share),
        9 => repeat_ext(0, r.between(0, 3) as u16, seq(stop(), half)),
        10 => choose(1, half, whole),
        1 => forever(seq(half, stop())),
        2 => repeat(r.between(2, 9) as u16, seq(stop(), half)),
        3 => repeat(2, half),
        4 => when(event(0), whole, half),
        5 => until(event(0), half.clone(), half),
        6 => repeat(0, whole),
        _ => par(half.clone(), local(0, control(0, half))),
    };
    Records::new(1, &program)
}

#[cfg(test)]
mod tests {
    use super::*;
    use crate::instant;

    #[test]
    fn weighs_what_is_asked() {
        for w in (1..=200).chain(65_000..=65_535) {
            let figures = instant::check(&Records::new(1, &weighing(w)).bytes()).expect("within the limits");
            assert_eq!(u128::from(figures.w), w);
        }
    }
}
