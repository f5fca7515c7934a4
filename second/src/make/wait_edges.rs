//! Call lines for what the first suspended test waits for (L1): each form of test, each place, scope and pass.

use super::draft::short::*;
use super::draft::{Cond, Draft, Records};
use super::edges::Edges;
use super::limits::{broad, nots, wrapped};

pub fn add(edges: &mut Edges) {
    tests(edges);
    places(edges);
    scopes(edges);
    passes(edges);
    limits(edges);
    refused(edges);
}

/// Conditions that several events leave unknown, some with parts that are fixed already.
fn conds() -> Vec<Cond> {
    vec![
        event(1),
        not(event(1)),
        and(event(1), event(0)),
        or(event(2), event(1)),
        and(or(event(0), event(1)), event(2)),
        and(event(2), or(event(1), event(0))),
        or(and(event(1), not(event(0))), event(2)),
        and(not(and(event(0), event(1))), not(event(2))),
        or(not(or(event(2), event(1))), and(event(0), event(2))),
        and(event(1), or(event(1), not(event(0)))),
    ]
}

/// Instants from fresh, each alone.
fn each(edges: &mut Edges, program: &Draft, sets: &[&[u16]]) {
    for handed in sets {
        edges.play(3, program, &[handed]);
    }
}

// Await, When and Until* over each condition with each set of events.
fn tests(edges: &mut Edges) {
    for c in conds() {
        for program in [wait(c.clone()), when(c.clone(), stop(), stop()), until(c, stop(), stop())] {
            each(edges, &program, &[&[], &[0], &[1], &[2], &[0, 1]]);
        }
    }
}

// Several tests wait: the lowest node, whatever its form and wherever the others stand.
fn places(edges: &mut Edges) {
    let forms = || {
        [
            wait(event(1)),
            when(event(2), stop(), nothing()),
            until(event(1), stop(), nothing()),
            control(2, stop()),
            seq(nothing(), wait(event(2))),
            repeat(2, wait(event(1))),
            local(1, wait(event(1))),
        ]
    };
    for t in forms() {
        for u in forms() {
            each(edges, &par(t.clone(), u), &[&[], &[1]]);
        }
    }
    for program in [
        control(2, wait(event(1))),
        control(0, control(1, wait(event(2)))),
        control(0, par(wait(event(0)), control(1, wait(event(2))))),
        until(event(0), par(stop(), wait(event(1))), nothing()),
        until(event(0), until(event(1), stop(), nothing()), nothing()),
        until(event(0), control(1, stop()), nothing()),
        par(stop(), par(wait(event(2)), wait(event(1)))),
        par(wait(event(0)), wait(and(event(0), not(event(1))))),
        seq(par(wait(event(1)), atom(1)), wait(event(0))),
        forever(seq(wait(event(0)), seq(wait(event(1)), stop()))),
    ] {
        each(edges, &program, &[&[], &[0], &[1], &[0, 1]]);
        edges.play(3, &program, &[&[0], &[], &[1], &[]]);
    }
}

// A name that a Local binds counts by its scope, also where the outer event of that name is otherwise.
fn scopes(edges: &mut Edges) {
    for program in [
        local(0, wait(event(0))),
        local(0, wait(and(event(0), event(1)))),
        local(0, seq(generate(0), wait(and(event(0), event(1))))),
        local(0, seq(generate(0), wait(and(event(1), not(event(2)))))),
        local(0, control(0, stop())),
        local(1, control(0, wait(event(1)))),
        local(0, until(event(0), stop(), nothing())),
        local(0, when(or(event(1), event(0)), stop(), nothing())),
        local(0, par(local(0, wait(event(0))), seq(generate(0), wait(and(event(0), event(2)))))),
        local(0, local(1, wait(and(event(0), and(event(1), event(2)))))),
        par(wait(event(0)), local(0, seq(generate(0), wait(event(1))))),
        par(local(0, seq(generate(0), wait(event(1)))), wait(event(0))),
        local(0, par(seq(generate(0), wait(and(event(0), event(2)))), generate(1))),
        until(event(0), local(0, seq(generate(0), stop())), nothing()),
    ] {
        each(edges, &program, &[&[], &[0], &[1], &[0, 1]]);
    }
}

// What waited in an earlier pass, or is met after the end, isn't named; nor is anything where no end is declared.
fn passes(edges: &mut Edges) {
    for program in [
        par(wait(event(1)), generate(0)),
        par(when(event(1), wait(event(0)), nothing()), generate(1)),
        par(wait(event(2)), par(wait(event(0)), seq(generate(0), generate(2)))),
        par(wait(event(0)), par(wait(event(1)), generate(0))),
        par(control(0, wait(event(2))), generate(0)),
        par(until(event(0), stop(), wait(event(1))), generate(0)),
        par(until(event(1), seq(wait(event(0)), stop()), nothing()), generate(0)),
        par(wait(or(event(0), event(1))), par(wait(and(event(0), event(1))), generate(0))),
        par(when(and(event(0), event(1)), stop(), stop()), generate(0)),
        until(not(event(1)), wait(event(0)), nothing()),
        until(event(2), par(wait(event(0)), seq(generate(1), stop())), nothing()),
        repeat(3, par(wait(event(0)), generate(0))),
        seq(par(generate(0), stop()), wait(event(0))),
    ] {
        edges.play(3, &program, &[&[], &[], &[1], &[]]);
        edges.play(3, &program, &[&[2], &[0], &[]]);
    }
}

// Event 1,023 and node 4,095 beside none, tall tests, deep ones, tests that share a configuration or its middle.
fn limits(edges: &mut Edges) {
    for (s, t) in [(255, 254), (128, 127), (127, 255), (0, 1_023), (64, 63), (1_023, 1_022), (256, 255), (512, 768)] {
        let records = Records::new(1_024, &wait(and(event(s), not(event(t)))));
        for handed in [&[][..], &[s], &[s, 3]] {
            edges.go_on(&records, vec![0; 4], &[handed]);
        }
        edges.go_on(&Records::new(1_024, &control(s, wait(event(t)))), vec![0; 8], &[&[], &[s]]);
    }
    for times in [1, 14, 15] {
        edges.play(1, &wait(nots(times, event(0))), &[&[], &[0]]);
        let tall = (0..times).fold(event(1), |inner, _| and(event(0), inner));
        edges.play(2, &wait(tall), &[&[], &[0], &[0, 1]]);
    }
    let last = seq(broad(4_094), wait(event(0)));
    edges.play(1, &last, &[&[], &[]]);
    edges.play(1, &wrapped(63, wait(event(0)), |_, t| par(stop(), t)), &[&[]]);
    let mut shared = Records::sharing(2, &par(wait(and(event(1), event(0))), wait(event(0))));
    for index in 0..3 {
        shared.nodes[2].argument = index;
        edges.go_on(&shared, vec![0; 12], &[&[1]]);
        // The first branch has ended.
        edges.go_on(&shared, vec![0, 2, 0, 0, 3, 0, 0, 0, 0, 0, 0, 0], &[&[], &[1]]);
    }
}

// Refused calls name no test, though one would wait.
fn refused(edges: &mut Edges) {
    let table = Records::new(2, &seq(atom(1), control(1, wait(event(0))))).bytes();
    for (state, events, places) in [
        (&[0; 15][..], &[][..], 1),
        (&[1; 16], &[], 1),
        (&[0; 16], &[2], 1),
        (&[0; 16], &[], 0),
        (&[0; 16], &[], 1),
        (&[0; 16], &[1], 1),
    ] {
        edges.instant(&table, state, events, places);
    }
    edges.all_calls(&Records::new(1, &par(wait(event(0)), forever(wait(event(0))))).bytes());
}
