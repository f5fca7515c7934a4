//! Tables to print at every limit and with every refusal.

use super::draft::short::*;
use super::draft::{Cond, Draft, Records};
use super::limits::{filled, nots, wrapped};
use super::text_edges::Edges;
use super::wide::LONGEST_TEXT;
use crate::instant;

pub fn add(edges: &mut Edges) {
    forms(edges);
    configurations(edges);
    refused(edges);
    longest(edges);
    round_trips(edges);
}

/// The text of an accepted table.
fn printed(records: &Records) -> String {
    instant::load(&records.bytes()).expect("an accepted table").0.root.to_string()
}

fn exact(edges: &mut Edges, records: &Records) {
    edges.print(&records.bytes(), printed(records).len());
}

/// In a room that is exact, long and short by one.
fn in_rooms(edges: &mut Edges, records: &Records) {
    let needed = printed(records).len();
    for room in [needed, needed + 3, needed - 1] {
        edges.print(&records.bytes(), room);
    }
}

// Every form, and numbers that print with few and many digits.
fn forms(edges: &mut Edges) {
    for program in [
        atom(0),
        atom(65_535),
        seq(stop(), nothing()),
        par(stop(), nothing()),
        seq(seq(atom(1), atom(2)), atom(3)),
        seq(atom(1), seq(atom(2), seq(atom(3), atom(4)))),
        par(atom(10), par(par(atom(99), atom(100)), atom(9_999))),
        forever(stop()),
        repeat(0, stop()),
        repeat(65_535, stop()),
        generate(0),
        generate(255),
        generate(1_023),
        wait(not(event(10))),
        wait(and(event(99), event(100))),
        wait(or(event(199), event(255))),
        wait(or(event(256), and(event(999), event(1_000)))),
        wait(not(event(1_023))),
        when(and(event(1), not(event(2))), atom(1), stop()),
        until(or(and(event(0), event(1)), not(not(event(2)))), stop(), atom(5)),
        control(0, local(1_023, stop())),
        local(0, control(255, par(wait(event(0)), generate(0)))),
        wrapped(63, stop(), |_, t| control(0, t)),
        wrapped(63, stop(), |_, t| par(t, stop())),
        wait(nots(15, event(7))),
        choose(0, atom(1), stop()),
        choose(9, stop(), atom(1)),
        choose(15, wait(event(3)), choose(10, stop(), wait(event(2)))),
        repeat_ext(0, 0, stop()),
        repeat_ext(1, 9, stop()),
        repeat_ext(10, 99, seq(atom(1), stop())),
        repeat_ext(15, 255, seq(stop(), wait(not(event(1))))),
        repeat_ext(9, 100, choose(1, repeat_ext(2, 10, stop()), nothing())),
        freezable(0, stop()),
        freezable(1_023, seq(wait(not(event(9))), stop())),
        freezable(10, freezable(99, local(100, freezable(100, par(stop(), generate(100)))))),
    ] {
        exact(edges, &Records::new(1_024, &program));
    }
    for program in [nothing(), stop(), wait(event(9))] {
        in_rooms(edges, &Records::new(10, &program));
    }
    edges.print(&Records::new(1, &stop()).bytes(), 0);
    edges.print(&Records::new(1, &stop()).bytes(), 33_000);
}

// Configurations that tests share, that begin within others, and that no test names.
fn configurations(edges: &mut Edges) {
    let mut middle = Records::new(4, &par(wait(and(not(event(0)), or(event(1), event(3)))), wait(event(2))));
    for index in 0..7 {
        middle.nodes[2].argument = index;
        exact(edges, &middle);
    }
    let test = || and(event(1), not(event(2)));
    let shared = when(test(), wait(test()), until(not(event(2)), stop(), wait(event(1))));
    in_rooms(edges, &Records::sharing(3, &shared));
    exact(edges, &Records::new(3, &shared));
    exact(edges, &filled(3, 5, 256));
}

// Printing meets 1 to 8 before 24.
fn refused(edges: &mut Edges) {
    let sound = Records::new(1, &stop()).bytes();
    for table in [
        vec![],
        sound[1..].to_vec(),
        vec![0; 32_779],
        Records::new(0, &stop()).bytes(),
        Records::new(257, &stop()).bytes(),
        [&[0], &sound[..]].concat(),
        Records::raw(1, &[(0, 0, 1)], &[(0, 1, 1)]).bytes(),
        Records::new(1, &wait(nots(16, event(0)))).bytes(),
        Records::raw(1, &[(13, 0, 1)], &[]).bytes(),
        Records::new(1, &choose(16, stop(), stop())).bytes(),
        Records::raw(1, &[(15, 4_096, 2), (1, 0, 1)], &[]).bytes(),
        Records::raw(1, &[(5, 0, 3), (1, 0, 2)], &[]).bytes(),
        Records::new(1, &wrapped(64, stop(), |_, t| local(0, t))).bytes(),
        Records::new(1, &forever(wait(event(0)))).bytes(),
        Records::new(1, &repeat(4_095, generate(0))).bytes(),
    ] {
        edges.print(&table, 0);
    }
    edges.print(&Records::new(1, &seq(stop(), forever(wait(event(0))))).bytes(), 60);
}

// A text of 33,000 bytes, the longest that a line has room for, and longer ones.
fn longest(edges: &mut Edges) {
    // 1,736 Stops under 1,735 Pars print as 32,974 bytes; an atom has as many more as it has digits.
    let atoms = |last: u16| {
        let mut leaves = vec![stop(); 1_730];
        leaves.extend(vec![atom(12_345); 5]);
        leaves.push(atom(last));
        Records::new(1, &halves(&leaves)).bytes()
    };
    edges.print(&atoms(1), LONGEST_TEXT);
    edges.print(&atoms(1), LONGEST_TEXT - 1);
    edges.print(&atoms(12), LONGEST_TEXT);
    // Each of many tests prints a copy of the same large configuration.
    edges.print(&Records::sharing(256, &halves(&vec![wait(tree(10, 255)); 300])).bytes(), 9);
}

// What is printed reads as the same tree with the lowest V, unless copies of configurations bring 2 or 22.
fn round_trips(edges: &mut Edges) {
    for (tests, height) in [(2, 7), (16, 7), (17, 7), (65, 7)] {
        let records = Records::sharing(3, &halves(&vec![wait(tree(height, 2)); tests]));
        exact(edges, &records);
        edges.exact(&printed(&records));
    }
    let lower = Records::new(256, &par(wait(or(event(4), event(2))), seq(generate(3), control(1, atom(9)))));
    exact(edges, &lower);
    edges.exact(&printed(&lower));
}

/// Programs under a flat tree of Pars.
fn halves(programs: &[Draft]) -> Draft {
    match programs {
        [program] => program.clone(),
        _ => {
            let (first, second) = programs.split_at(programs.len() / 2);
            par(halves(first), halves(second))
        }
    }
}

/// A full tree of this height over one event.
fn tree(height: usize, s: u16) -> Cond {
    if height == 1 {
        event(s)
    } else {
        or(tree(height - 1, s), tree(height - 1, s))
    }
}
