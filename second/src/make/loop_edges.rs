//! Call lines round refusal 7 and the figures as L2 has them: what stops by what a test can be before the end.

use super::draft::short::*;
use super::draft::{Cond, Records};
use super::edges::Edges;
use super::limits::{nots, wrapped};

pub fn add(edges: &mut Edges) {
    loops(edges);
    figures(edges);
    rounds(edges);
}

/// Conditions of every form over two events.
fn early_conds() -> Vec<Cond> {
    let parts = || [event(0), not(event(1))];
    let mut found = vec![event(0), not(event(0)), nots(2, event(0)), and(event(0), not(event(0)))];
    found.push(or(event(0), not(event(0))));
    for c in parts() {
        for d in parts() {
            found.extend([and(c.clone(), d.clone()), or(c.clone(), d.clone())]);
        }
    }
    found.extend([not(and(event(0), not(event(1)))), not(or(event(0), event(1))), not(or(event(0), not(event(1))))]);
    let nested = || or(event(0), and(event(1), not(event(0))));
    found.extend([nested(), not(nested()), and(nested(), event(1)), or(not(event(1)), not(nested()))]);
    found
}

// Refusal 7 by what tests can be before the end (L2), each kind of condition in each place.
fn loops(edges: &mut Edges) {
    for c in early_conds() {
        for body in [
            wait(c.clone()),
            when(c.clone(), stop(), nothing()),
            when(c.clone(), nothing(), stop()),
            when(c.clone(), nothing(), nothing()),
            until(c.clone(), stop(), nothing()),
            until(c.clone(), nothing(), stop()),
        ] {
            edges.check(&Records::new(2, &forever(body)).bytes());
        }
    }
    let (late, soon) = (|| not(event(0)), || event(0));
    let gate = || wait(late());
    for body in [
        seq(gate(), nothing()),
        seq(atom(1), gate()),
        seq(wait(soon()), wait(soon())),
        par(gate(), nothing()),
        par(wait(soon()), gate()),
        par(wait(soon()), wait(event(1))),
        control(0, gate()),
        control(0, wait(soon())),
        local(0, gate()),
        local(0, wait(soon())),
        repeat(0, gate()),
        repeat(1, gate()),
        repeat(1, wait(soon())),
        when(soon(), gate(), wait(soon())),
        when(soon(), wait(soon()), gate()),
        when(late(), gate(), wait(soon())),
        when(late(), wait(soon()), gate()),
        when(soon(), when(soon(), stop(), nothing()), nothing()),
        when(soon(), when(late(), stop(), nothing()), nothing()),
        until(soon(), gate(), gate()),
        until(soon(), gate(), wait(soon())),
        until(late(), gate(), wait(soon())),
        until(late(), wait(soon()), gate()),
        until(late(), until(late(), stop(), nothing()), nothing()),
        until(late(), until(soon(), stop(), nothing()), nothing()),
        forever(gate()),
        forever(wait(soon())),
        forever(when(soon(), stop(), nothing())),
    ] {
        edges.check(&Records::new(2, &forever(body)).bytes());
    }
    // The lowest of several, where others stop by a test only (A11).
    let bad = || forever(wait(soon()));
    let good = || forever(gate());
    for program in [
        par(good(), bad()),
        par(bad(), good()),
        seq(good(), par(bad(), bad())),
        forever(when(soon(), good(), bad())),
        forever(until(late(), good(), bad())),
        forever(when(late(), bad(), nothing())),
        repeat(0, par(good(), bad())),
    ] {
        edges.all_calls(&Records::new(2, &program).bytes());
    }
    // Towers of `not`, and tests that name the middle of a configuration (A5) or share one.
    for times in [2, 3, 14, 15] {
        edges.check(&Records::new(1, &forever(wait(nots(times, soon())))).bytes());
        edges.check(&Records::new(1, &forever(when(nots(times, soon()), stop(), nothing()))).bytes());
    }
    let mut middle = Records::new(2, &par(wait(or(and(soon(), not(event(1))), not(event(1)))), forever(gate())));
    for index in 0..8 {
        middle.nodes[3].argument = index;
        edges.check(&middle.bytes());
    }
    let shared = par(forever(wait(late())), forever(until(late(), wait(late()), wait(soon()))));
    edges.check(&Records::sharing(2, &shared).bytes());
    // Faults that come before 7.
    let deep = |times| wrapped(times, forever(wait(soon())), |_, t| control(0, t));
    for times in [61, 62, 63] {
        edges.check(&Records::new(1, &par(good(), deep(times))).bytes());
    }
    for (place, kind) in [(0, 2), (0, 3), (0, 4), (1, 1)] {
        let mut records = Records::new(1, &forever(wait(late())));
        records.configs[place].kind = kind;
        edges.check(&records.bytes());
    }
}

// Refusal 8 and the figures by L2: what stops by a test only counts at most twice (L2.1).
fn figures(edges: &mut Edges) {
    for c in early_conds() {
        let weight = || seq(generate(0), atom(1));
        edges.check(&Records::new(2, &repeat(9, seq(weight(), wait(c.clone())))).bytes());
        edges.check(&Records::new(2, &repeat(7, when(c.clone(), seq(weight(), stop()), weight()))).bytes());
        edges.check(&Records::new(2, &repeat(7, when(c.clone(), weight(), seq(weight(), stop())))).bytes());
        edges.check(&Records::new(2, &repeat(5, until(c, seq(weight(), stop()), weight()))).bytes());
    }
    let gate = || wait(not(event(0)));
    for count in [0, 1, 2, 3, 65_535] {
        edges.check(&Records::new(1, &repeat(count, gate())).bytes());
        edges.check(&Records::new(1, &repeat(count, repeat(count, gate()))).bytes());
    }
    for (leaf, limit) in [(generate(0), 4_094), (atom(9), 4_096), (nothing(), 65_534)] {
        let half = |more| repeat(limit / 2 + more, leaf.clone());
        // A half, its Repeat, a Seq and a test weigh some more than a half in W.
        for less in 0..=4u16 {
            let part = || repeat(limit / 2 + 1 - less, leaf.clone());
            edges.check(&Records::new(1, &forever(seq(part(), gate()))).bytes());
        }
        for program in [
            repeat(9, seq(half(0), gate())),
            repeat(9, seq(half(1), gate())),
            repeat(9, seq(half(0), wait(event(0)))),
            repeat(limit + 1, seq(leaf.clone(), gate())),
            repeat(limit + 1, seq(leaf.clone(), wait(event(0)))),
            repeat(9, when(event(0), stop(), repeat(limit / 2 - 8, leaf.clone()))),
            repeat(9, when(not(event(0)), stop(), repeat(limit / 2 - 8, leaf.clone()))),
            repeat(9, until(not(event(0)), stop(), repeat(limit / 2 - 8, leaf.clone()))),
            repeat(9, until(event(0), stop(), repeat(limit / 2 - 8, leaf.clone()))),
        ] {
            edges.check(&Records::new(1, &program).bytes());
        }
    }
}

// Loops that only a test stops, played: early, at the end, and from the rest that it leaves.
fn rounds(edges: &mut Edges) {
    let (late, soon) = (|| not(event(0)), || event(0));
    for program in [
        forever(when(soon(), stop(), nothing())),
        forever(wait(late())),
        forever(wait(and(soon(), not(event(1))))),
        forever(until(late(), stop(), nothing())),
        forever(when(late(), nothing(), stop())),
        forever(seq(atom(1), until(late(), seq(atom(2), stop()), atom(3)))),
        repeat(9, seq(generate(0), wait(late()))),
        repeat(3, seq(atom(1), wait(late()))),
        forever(seq(wait(late()), generate(0))),
        par(forever(seq(atom(1), wait(late()))), seq(wait(event(1)), generate(0))),
    ] {
        edges.play(2, &program, &[&[], &[0], &[], &[1], &[0, 1], &[]]);
    }
}
