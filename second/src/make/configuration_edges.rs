//! Call lines for how a test is worked out (L4): each height, which part decides, what is passed over, how many levels close at once.

use super::draft::short::*;
use super::draft::{Cond, Draft, Records};
use super::edges::Edges;
use super::limits::nots;

/// Adds them to the others.
pub fn add(edges: &mut Edges) {
    heights(edges);
    deciding_parts(edges);
    passed_over(edges);
    closed_at_once(edges);
    later_passes(edges);
    middles(edges);
    high_events(edges);
}

/// The side on which the taller part of an `and` or an `or` stands.
#[derive(Clone, Copy)]
enum Lean {
    Left,
    Right,
}

/// A condition of this height over event 0: not, and, or in turn, the innermost the one of this number; event 1 beside an `and`, 2 beside an `or`.
fn tower(height: usize, innermost: usize, lean: Lean) -> Cond {
    (1..height).fold(event(0), |inner, level| {
        let parted = |whole: fn(Cond, Cond) -> Cond, side: Cond, inner: Cond| match lean {
            Lean::Left => whole(inner, side),
            Lean::Right => whole(side, inner),
        };
        match (innermost + level) % 3 {
            0 => not(inner),
            1 => parted(and, event(1), inner),
            _ => parted(or, event(2), inner),
        }
    })
}

/// A program in which each value of a condition, before the end and after it, shows.
fn form(number: usize, cond: Cond) -> Draft {
    match number % 3 {
        0 => wait(cond),
        1 => when(cond, atom(1), atom(2)),
        _ => until(cond, stop(), atom(3)),
    }
}

/// Instants from fresh, each alone.
fn each(edges: &mut Edges, program: &Draft, sets: &[&[u16]]) {
    for handed in sets {
        edges.play(1_024, program, &[handed]);
    }
}

// Heights 1 to 16, and 17, which is refused; nots alone, and not, and, or in turn.
fn heights(edges: &mut Edges) {
    for times in 0..16 {
        each(edges, &form(times, nots(times, event(0))), &[&[], &[0]]);
    }
    for lean in [Lean::Left, Lean::Right] {
        for height in 1..=16 {
            each(edges, &form(height, tower(height, height, lean)), &[&[0, 1], &[1]]);
        }
        for innermost in 0..3 {
            each(edges, &form(innermost, tower(16, innermost, lean)), &[&[], &[0], &[2]]);
            edges.check(&Records::new(3, &form(innermost, tower(17, innermost, lean))).bytes());
        }
    }
}

// Each value of the first part with each of the second, event 0 present and 1 and 2 unknown, under no, one and two nots.
fn deciding_parts(edges: &mut Edges) {
    let mut number = 0;
    for whole in [and, or] {
        for first in [event(0), not(event(0)), event(1)] {
            for second in [event(0), not(event(0)), not(event(2))] {
                for times in 0..3 {
                    number += 1;
                    let cond = nots(times, whole(first.clone(), second.clone()));
                    each(edges, &form(number, cond), &[&[0]]);
                }
                let inner = whole(first.clone(), second.clone());
                number += 1;
                each(edges, &form(number, and(inner.clone(), not(event(3)))), &[&[0], &[0, 3]]);
                each(edges, &form(number, or(not(inner), event(3))), &[&[0], &[0, 3]]);
            }
        }
    }
}

/// A full condition of this height over the events from this one on, `and` and `or` in turn; gives the next event too.
fn full(height: usize, from: u16) -> (Cond, u16) {
    if height == 1 {
        return (event(from), from + 1);
    }
    let (first, next) = full(height - 1, from);
    let (second, end) = full(height - 1, next);
    (if height % 2 == 0 { and(first, second) } else { or(first, second) }, end)
}

// A first part decides and a second of 31, 511 or 1,023 records is passed over, with another level's part behind it; or the second must be read.
fn passed_over(edges: &mut Edges) {
    for (number, height) in [5, 9, 10].into_iter().enumerate() {
        let large = || full(height, 2).0;
        let all: Vec<u16> = (2..full(height, 2).1).collect();
        for cond in [
            and(or(event(0), large()), event(1)),
            or(and(not(event(0)), large()), event(1)),
            and(not(and(not(event(0)), large())), event(1)),
            or(not(or(event(0), large())), not(event(1))),
            and(large(), or(event(0), large())),
        ] {
            each(edges, &form(number, cond), &[&[0], &[0, 1], &[1]]);
        }
        each(edges, &form(number, and(event(0), large())), &[&all]);
        each(edges, &form(number, or(event(0), large())), &[&all, &all[1..]]);
        each(edges, &form(number, or(large(), event(0))), &[&all[1..], &[0]]);
    }
}

// Several levels close with one part: with the first of all, with the last, and through nots that turn what they make of it.
fn closed_at_once(edges: &mut Edges) {
    let (sat, unsat) = (|| event(0), || not(event(0)));
    for (number, cond) in [
        and(and(and(unsat(), event(1)), event(2)), event(3)),
        or(or(or(sat(), event(1)), event(2)), event(3)),
        and(or(and(unsat(), event(1)), event(2)), event(3)),
        or(and(or(sat(), event(1)), event(2)), event(3)),
        and(event(1), and(event(2), and(event(3), unsat()))),
        or(event(1), or(event(2), or(event(3), sat()))),
        and(event(1), not(or(event(2), not(and(event(3), unsat()))))),
        or(event(1), not(and(event(2), not(or(event(3), sat()))))),
        not(and(not(or(not(and(unsat(), event(1))), event(2))), event(3))),
        not(or(not(and(not(or(sat(), event(1))), event(2))), event(3))),
        and(sat(), or(unsat(), and(sat(), not(event(1))))),
        or(unsat(), and(sat(), or(unsat(), event(1)))),
        or(and(event(1), unsat()), and(event(2), unsat())),
        and(or(event(1), sat()), or(event(2), sat())),
        and(or(event(1), event(2)), not(or(event(3), sat()))),
    ]
    .into_iter()
    .enumerate()
    {
        each(edges, &form(number, cond), &[&[], &[0], &[0, 1], &[0, 3]]);
    }
}

// A test that is unknown in a pass and decided in the next, by its first part, by its second, or at the end only.
fn later_passes(edges: &mut Edges) {
    for (number, cond) in [
        and(not(event(0)), event(1)),
        and(event(1), not(event(0))),
        or(event(0), event(1)),
        or(not(event(1)), not(not(event(0)))),
        not(and(event(1), or(event(0), event(2)))),
        or(and(event(0), event(1)), not(or(event(2), event(3)))),
        and(or(event(0), event(1)), not(and(event(2), event(3)))),
    ]
    .into_iter()
    .enumerate()
    {
        for program in [form(number, cond.clone()), form(number + 1, cond)] {
            edges.play(4, &par(program, generate(0)), &[&[], &[2], &[1]]);
        }
    }
}

// A test at each record of another's configuration; tests that share one.
fn middles(edges: &mut Edges) {
    let cond = or(and(not(event(0)), event(1)), not(or(event(2), not(and(event(0), event(1))))));
    let mut records = Records::new(3, &par(when(cond.clone(), atom(1), atom(2)), wait(event(2))));
    let last = records.nodes.len() - 1;
    for index in 0..records.configs.len() {
        records.nodes[last].argument = index as u16;
        for handed in [&[][..], &[0], &[0, 1]] {
            edges.go_on(&records, vec![0; 4 * records.nodes.len()], &[handed]);
        }
    }
    let shared = par(until(cond.clone(), stop(), atom(3)), par(when(cond.clone(), atom(1), atom(2)), wait(cond)));
    let records = Records::sharing(3, &shared);
    for handed in [&[][..], &[0], &[1], &[2], &[0, 1]] {
        edges.go_on(&records, vec![0; 4 * records.nodes.len()], &[handed, &[2]]);
    }
}

// Parts whose events differ in their upper parts only, event bytes that are kinds of other records, and tall tests over them.
fn high_events(edges: &mut Edges) {
    for (number, (s, t)) in
        [(1, 257), (258, 2), (515, 771), (771, 515), (1_023, 255), (16, 272)].into_iter().enumerate()
    {
        for cond in [and(event(s), not(event(t))), or(not(event(t)), event(s)), not(or(not(event(s)), event(t)))] {
            each(edges, &form(number, cond), &[&[], &[s], &[t]]);
        }
        each(edges, &form(number, nots(14, and(event(s), event(t)))), &[&[s], &[s, t]]);
    }
}
