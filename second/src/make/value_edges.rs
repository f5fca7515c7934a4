//! Call lines of L14, If and RepeatExt: arguments at their limits, what stops and weighs, states, every value, and when it is read.

use super::draft::short::*;
use super::draft::{Draft, Records};
use super::edges::Edges;
use super::limits::wrapped;
use crate::env::Values;

/// Adds them to the others.
pub fn add(edges: &mut Edges) {
    arguments(edges);
    sizes(edges);
    loops(edges);
    figures(edges);
    counts(edges);
    each_value(edges);
    caps(edges);
    choices(edges);
    rounds(edges);
    among_tests(edges);
    refused(edges);
}

/// Zeros, but for these values.
fn values(given: &[(usize, u8)]) -> Values {
    let mut values = Values::default();
    for &(number, value) in given {
        values[number] = value;
    }
    values
}

/// Instants one after the other from fresh on, each with events and values.
fn play(edges: &mut Edges, program: &Draft, instants: &[(&[u16], &[(usize, u8)])]) {
    let records = Records::new(2, program);
    let instants: Vec<_> = instants.iter().map(|&(events, given)| (events, values(given))).collect();
    edges.ask(&records, vec![0; 4 * records.nodes.len()], &instants);
}

/// A fresh state with each of these values in turn as value 0.
fn with_each(edges: &mut Edges, program: &Draft, tried: &[u8]) {
    for &value in tried {
        play(edges, program, &[(&[], &[(0, value)])]);
    }
}

// Refusal 5: kinds 13 to 17 as leaves, over one and over two; a value's number up to 15, a cap up to 255 times 16 plus it.
fn arguments(edges: &mut Edges) {
    for kind in 13..=17 {
        edges.check(&Records::raw(2, &[(kind, 0, 1)], &[]).bytes());
        edges.check(&Records::raw(2, &[(kind, 0, 2), (1, 0, 1)], &[]).bytes());
        edges.check(&Records::raw(2, &[(kind, 0, 3), (1, 0, 1), (1, 0, 1)], &[]).bytes());
    }
    for argument in [1, 15, 16, 17, 256, 4_095, 65_535] {
        edges.check(&Records::raw(2, &[(14, argument, 3), (1, 0, 1), (1, 0, 1)], &[]).bytes());
    }
    for argument in [15, 16, 255, 256, 4_080, 4_095, 4_096, 4_097, 65_535] {
        edges.check(&Records::raw(2, &[(15, argument, 2), (1, 0, 1)], &[]).bytes());
    }
    // The argument is neither an event nor a configuration.
    edges.all_calls(&Records::raw(1, &[(14, 15, 3), (1, 0, 1), (2, 7, 1)], &[]).bytes());
    edges.all_calls(&Records::raw(1, &[(15, 4_095, 2), (1, 0, 1)], &[]).bytes());
}

// Refusal 5: a size or a zero byte that is wrong.
fn sizes(edges: &mut Edges) {
    for nodes in [&[(14, 3, 3), (1, 0, 1), (2, 1, 1)][..], &[(15, 35, 2), (2, 1, 1)]] {
        let mut records = Records::raw(1, nodes, &[]);
        records.nodes[0].zero = 1;
        edges.check(&records.bytes());
        records.nodes[0].zero = 0;
        for size in [0, 1, 2, 3, 4, 65_535] {
            records.nodes[0].size = size;
            edges.check(&records.bytes());
        }
    }
    edges.check(&Records::raw(1, &[(14, 0, 4), (1, 0, 2), (1, 0, 1)], &[]).bytes());
    edges.check(&Records::raw(1, &[(14, 0, 3), (1, 0, 1), (15, 16, 1)], &[]).bytes());
    edges.check(&Records::raw(1, &[(15, 16, 3), (14, 0, 2), (1, 0, 1)], &[]).bytes());
    for times in [62, 63, 64] {
        edges.check(&Records::new(1, &wrapped(times, stop(), |_, t| repeat_ext(1, 1, t))).bytes());
        edges.check(&Records::new(1, &wrapped(times, stop(), |_, t| choose(1, nothing(), t))).bytes());
        edges.check(&Records::new(1, &wrapped(times, stop(), |_, t| choose(1, t, nothing()))).bytes());
    }
}

// Refusal 7: If stops where both branches do, RepeatExt never.
fn loops(edges: &mut Edges) {
    for (then, other) in [(stop(), stop()), (stop(), nothing()), (nothing(), stop()), (nothing(), nothing())] {
        let choice = || choose(0, then.clone(), other.clone());
        for body in [choice(), seq(choice(), nothing()), repeat(1, choice()), choose(0, forever(stop()), choice())] {
            edges.check(&Records::new(1, &forever(body)).bytes());
        }
    }
    for cap in [0, 1, 255] {
        let many = || repeat_ext(0, cap, stop());
        for body in [many(), seq(many(), stop()), choose(0, many(), stop()), repeat(2, many())] {
            edges.check(&Records::new(1, &forever(body)).bytes());
        }
        // A Loop below it is named whatever the cap.
        edges.check(&Records::new(1, &repeat_ext(0, cap, forever(nothing()))).bytes());
        edges.check(&Records::new(1, &choose(0, atom(1), forever(repeat_ext(0, cap, stop())))).bytes());
    }
}

// The figures use the cap, at most 2 of it where the body stops, and the larger branch; refusal 8 at each limit.
fn figures(edges: &mut Edges) {
    for cap in [0, 1, 2, 3, 255] {
        for body in [
            atom(1),
            generate(0),
            seq(stop(), atom(1)),
            seq(generate(1), choose(0, stop(), stop())),
            seq(atom(1), choose(0, stop(), nothing())),
            seq(generate(1), repeat_ext(1, 2, stop())),
        ] {
            edges.check(&Records::new(2, &repeat_ext(7, cap, body)).bytes());
        }
        // However heavy the body, a cap of 0 weighs 1 alone.
        edges.check(&Records::new(1, &repeat_ext(0, cap, repeat(65_535, repeat(65_535, generate(0))))).bytes());
    }
    for (leaf, times) in [(generate(0), 14), (atom(1), 16)] {
        for over in [0, 1] {
            let rest = repeat(times + over, leaf.clone());
            let most = repeat_ext(15, 255, repeat(16, leaf.clone()));
            edges.check(&Records::new(1, &seq(most.clone(), rest.clone())).bytes());
            edges.check(&Records::new(1, &choose(0, seq(rest, most), nothing())).bytes());
        }
    }
    for count in [252, 253] {
        // 1 for Seq, 65,281 for the two RepeatExts over Nothing, 1 for Repeat.
        let program = seq(repeat_ext(0, 255, repeat_ext(1, 255, nothing())), repeat(count, nothing()));
        edges.check(&Records::new(1, &program).bytes());
    }
    for (then, other) in [(4_094, 4_094), (4_095, 0), (0, 4_095), (2_047, 2_048)] {
        edges.check(&Records::new(1, &choose(0, repeat(then, generate(0)), repeat(other, generate(0)))).bytes());
    }
    edges.check(&Records::new(1, &choose(0, repeat(3, atom(1)), atom(2))).bytes());
}

// Refusal 10: a count is below the cap, and 0 in phase 0.
fn counts(edges: &mut Edges) {
    for cap in [0, 1, 5, 255] {
        let records = Records::new(1, &repeat_ext(1, cap, seq(stop(), atom(1))));
        let counts = [0, 1, cap.max(1) - 1, cap, cap + 1, 256, 65_535];
        for (phase, most) in [(0, 2), (1, 7), (2, 1)] {
            for count in &counts[..most] {
                let mut state = vec![0; 16];
                state[0] = phase;
                state[2..4].copy_from_slice(&count.to_be_bytes());
                edges.ask(&records, state, &[(&[], values(&[(1, 2)]))]);
            }
        }
    }
}

// Each of the sixteen values alone, and all but it.
fn each_value(edges: &mut Edges) {
    for number in 0..16 {
        let program = seq(choose(number, atom(1), atom(2)), repeat_ext(number, 3, atom(4)));
        let place = usize::from(number);
        let mut others = [7; 16];
        others[place] = 0;
        let records = Records::new(1, &program);
        for given in [values(&[(place, 1 + 253 * u8::from(place % 2 == 0))]), others] {
            edges.ask(&records, vec![0; 24], &[(&[], given)]);
        }
    }
}

// The lesser of cap and value, over bodies that end, stop, wait, or say when they begin.
fn caps(edges: &mut Edges) {
    for cap in [0, 1, 2, 5, 255] {
        with_each(edges, &repeat_ext(0, cap, atom(7)), &[0, 1, 4, 5, 6, 254, 255]);
    }
    for (cap, value) in [(1, 1), (1, 2), (2, 0), (2, 1), (5, 2), (5, 255), (255, 3)] {
        let stopped = repeat_ext(0, cap, seq(stop(), atom(1)));
        play(edges, &stopped, &[(&[], &[(0, value)]), (&[], &[(0, 200)]), (&[], &[]), (&[], &[(0, 1)])]);
    }
    with_each(edges, &repeat_ext(0, 3, repeat_ext(0, 3, atom(1))), &[0, 1, 2, 3, 4]);
    with_each(edges, &repeat_ext(0, 2, generate(1)), &[0, 1, 3]);
}

// A choice is made when If is reached, by the values of that instant, and kept.
fn choices(edges: &mut Edges) {
    let one = (&[][..], &[(0, 1)][..]);
    let none = (&[][..], &[][..]);
    let choice = || choose(0, seq(stop(), atom(1)), seq(stop(), atom(2)));
    for program in [
        choice(),
        seq(choice(), atom(3)),
        seq(stop(), choose(0, atom(1), atom(2))),
        repeat(2, choice()),
        forever(choice()),
        par(choice(), seq(stop(), choice())),
        control(0, choice()),
        local(0, choice()),
        when(not(event(0)), choose(0, atom(1), atom(2)), stop()),
        until(not(event(0)), stop(), choose(0, atom(1), atom(2))),
        until(event(0), choice(), atom(9)),
        choose(0, choose(1, atom(1), stop()), choose(1, atom(2), stop())),
    ] {
        play(edges, &program, &[one, none, one]);
        play(edges, &program, &[none, one, one]);
    }
}

// A RepeatExt reads its value when it begins, each activation anew; an If in its body asks anew in each round.
fn rounds(edges: &mut Edges) {
    for program in [
        repeat_ext(0, 4, seq(stop(), atom(1))),
        seq(stop(), repeat_ext(0, 4, seq(atom(1), stop()))),
        repeat(2, repeat_ext(0, 3, seq(atom(1), stop()))),
        forever(seq(repeat_ext(0, 3, atom(1)), stop())),
        forever(seq(stop(), repeat_ext(0, 3, seq(stop(), atom(1))))),
        repeat_ext(0, 3, choose(1, stop(), atom(4))),
        repeat_ext(0, 3, repeat_ext(1, 3, seq(atom(1), stop()))),
        repeat_ext(0, 3, seq(repeat_ext(1, 2, atom(1)), stop())),
        par(repeat_ext(0, 2, seq(stop(), atom(1))), repeat_ext(1, 3, seq(stop(), atom(2)))),
        until(event(0), repeat_ext(0, 4, seq(atom(1), stop())), repeat_ext(1, 2, atom(2))),
    ] {
        play(edges, &program, &[(&[], &[(0, 2), (1, 1)]), (&[], &[(0, 9)]), (&[0], &[(0, 1), (1, 2)])]);
        play(edges, &program, &[(&[0], &[(0, 3)]), (&[], &[(1, 1)]), (&[], &[(0, 255), (1, 255)])]);
    }
    // Example 11's states: a count of 0 and of 1 left, over a body that is over.
    let records = Records::new(1, &repeat_ext(0, 2, stop()));
    for count in [0, 1] {
        edges.ask(&records, vec![1, 0, 0, count, 3, 0, 0, 0], &[(&[], values(&[])), (&[], values(&[(0, 255)]))]);
        edges.ask(&records, vec![1, 0, 0, count, 0, 0, 0, 0], &[(&[], values(&[]))]);
    }
}

// Over several passes a choice and a count stay, atoms come once, and what is waited for is a test, never the If.
fn among_tests(edges: &mut Edges) {
    for program in [
        par(choose(0, seq(atom(1), wait(event(1))), seq(atom(2), wait(event(0)))), generate(1)),
        par(repeat_ext(0, 2, seq(atom(1), wait(event(1)))), seq(atom(9), generate(1))),
        par(choose(0, wait(event(1)), wait(event(0))), wait(event(0))),
        choose(0, wait(event(1)), control(0, stop())),
        par(repeat_ext(0, 3, seq(generate(0), wait(event(1)))), wait(event(0))),
        par(when(event(1), choose(0, atom(1), atom(2)), stop()), choose(0, generate(1), nothing())),
        par(wait(event(0)), choose(0, generate(0), generate(1))),
        local(0, par(choose(0, generate(0), nothing()), when(event(0), atom(1), atom(2)))),
        until(event(0), choose(0, stop(), wait(event(1))), repeat_ext(0, 2, atom(5))),
    ] {
        for given in [&[][..], &[(0, 1)], &[(0, 2)]] {
            play(edges, &program, &[(&[], given), (&[0, 1], &[])]);
        }
    }
}

// Refusals 9 to 12 whatever the values; values that no form asks for.
fn refused(edges: &mut Edges) {
    let records = Records::new(1, &seq(choose(0, atom(1), atom(2)), repeat_ext(1, 2, atom(3))));
    for given in [&[][..], &[(0, 1), (1, 9)]] {
        edges.ask(&records, vec![0; 21], &[(&[], values(given))]);
        edges.ask(&records, vec![0, 0, 0, 0, 3], &[(&[1], values(given))]);
        edges.ask(&records, vec![0, 0, 1].into_iter().chain([0; 21]).collect(), &[(&[1], values(given))]);
        edges.ask(&records, vec![0; 24], &[(&[1], values(given))]);
    }
    let table = records.bytes();
    for places in [0, 2, 3] {
        edges.instant(&table, &[0; 24], &[], places);
    }
    let plain = Records::new(2, &par(when(event(0), atom(1), atom(2)), repeat(2, seq(stop(), atom(3)))));
    for given in [[0; 16], [1; 16], [255; 16]] {
        edges.ask(&plain, vec![0; 32], &[(&[0], given), (&[], given)]);
    }
}
