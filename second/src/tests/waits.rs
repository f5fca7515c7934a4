//! L1: what the first suspended test waits for. Its examples, typed in, and those of L4 and L5 that wait.

use super::*;
use crate::lines;
use crate::make::draft::short::*;
use crate::make::{edges, waits};
use crate::state::below;
use crate::table::{self, Node, Written};
use crate::words::read_hex;

/// Sixteen values, all 0.
const ZEROS: &str = "00000000000000000000000000000000";

/// The fields of an instant that waits.
pub fn at(node: usize, event: u16) -> Option<Wait> {
    Some(Wait { node, event })
}

/// Fresh states run with these events each wait so.
fn fresh(events: u16, program: Draft, cases: &[(&[u16], Option<Wait>)]) {
    for (handed, wanted) in cases {
        let report = Play::new(events, program.clone()).call(handed).expect("no refusal");
        assert_eq!(report.waits, *wanted, "{handed:?}");
    }
}

// Example 1: two tests wait, the first in node order is named; none where the end isn't declared.
#[test]
fn p_waits() {
    let program = par(seq(wait(event(0)), seq(atom(7), generate(1))), wait(event(1)));
    let mut play = Play::new(2, program);
    play.instant(&[], 2, "STOP", &[], &[]);
    assert_eq!(play.waits, at(2, 0));
    assert_eq!(play.state, [0; 28]);
    play.instant(&[0], 1, "TERM", &[0, 1], &[7]);
    assert_eq!(play.waits, None);
}

// Example 2: the lowest event mentioned that isn't present.
#[test]
fn lowest_event() {
    let program = || wait(and(event(1), event(0)));
    fresh(2, program(), &[(&[0], at(0, 1)), (&[], at(0, 0)), (&[1], at(0, 0)), (&[0, 1], None)]);
    let mut play = Play::new(2, program());
    for handed in [&[0][..], &[], &[1]] {
        play.instant(handed, 2, "STOP", handed, &[]);
        assert_eq!(play.state, [0; 4]);
    }
}

// Example 3: the last pass before the end is the quiet second one.
#[test]
fn the_quiet_pass() {
    let mut play = Play::new(2, par(wait(event(1)), generate(0)));
    play.instant(&[], 3, "STOP", &[0], &[]);
    assert_eq!(play.waits, at(1, 1));
    assert_eq!(play.state, [0, 8, 0, 0, 0, 0, 0, 0, 3, 0, 0, 0]);
}

// Examples 4 and 5: present or not is as the test sees it.
#[test]
fn a_local_event() {
    let mut play = Play::new(2, local(0, seq(generate(0), wait(and(event(0), event(1))))));
    play.instant(&[], 3, "STOP", &[], &[]);
    assert_eq!(play.waits, at(3, 1));
    assert_eq!(play.phases(), [0, 2, 0, 0]);
    let mut play = Play::new(1, local(0, wait(event(0))));
    play.instant(&[0], 2, "STOP", &[0], &[]);
    assert_eq!(play.waits, at(1, 0));
    assert_eq!(play.phases(), [0, 0]);
}

// Example 6: Until* is named by the Until's node.
#[test]
fn until_star() {
    let mut play = Play::new(1, until(event(0), stop(), atom(5)));
    play.instant(&[], 2, "STOP", &[], &[]);
    assert_eq!(play.waits, at(0, 0));
    assert_eq!(play.phases(), [0, 3, 0]);
}

// Example 7: Control for its own event; with it present, the body's test.
#[test]
fn control_waits() {
    let mut play = Play::new(3, control(2, wait(event(1))));
    play.instant(&[], 2, "STOP", &[], &[]);
    assert_eq!(play.waits, at(0, 2));
    play.instant(&[2], 2, "STOP", &[2], &[]);
    assert_eq!(play.waits, at(1, 1));
    assert_eq!(play.phases(), [0, 0]);
}

// Example 8: the When waited in the first pass, the Await in the last.
#[test]
fn not_an_earlier_pass() {
    let mut play = Play::new(2, par(when(event(1), wait(event(0)), nothing()), generate(1)));
    play.instant(&[], 3, "STOP", &[1], &[]);
    assert_eq!(play.waits, at(2, 0));
    assert_eq!(play.state, [0, 8, 0, 0, 1, 0, 0, 0, 0, 0, 0, 0, 0, 0, 0, 0, 3, 0, 0, 0]);
}

// Example 9: parts that are fixed already count too.
#[test]
fn fixed_parts_count() {
    let program = wait(and(or(event(0), event(1)), event(2)));
    fresh(3, program, &[(&[1], at(0, 0)), (&[0, 1], at(0, 2)), (&[0], at(0, 1)), (&[0, 1, 2], None), (&[2], at(0, 0))]);
}

// Example 10: a refusal names no test.
#[test]
fn refused_calls() {
    assert_eq!(Play::new(1, wait(event(0))).call(&[3, 0]), refused(11, 3));
    let table = "08000000000100000001000100010001000a0004";
    assert_eq!(
        lines::answer(format!("instant {table} 00000000 0,3 {ZEROS} - 0000").as_bytes()),
        "11 3 - 0 1024 0 0 0 4096 1024 00000000 - 0000"
    );
    assert_eq!(
        lines::answer(format!("instant {table} 00000000 - {ZEROS} - 0000").as_bytes()),
        "0 0 - 0 1024 0 0 2 0 0 00000000 - 0000"
    );
    assert_eq!(
        lines::answer(format!("instant {table} 00000000 0 {ZEROS} - 0000").as_bytes()),
        "0 0 0 1 0 0 1 1 4096 1024 03000000 - 0000"
    );
}

// The examples of L4 that wait.
#[test]
fn tall_tests() {
    let tower = (0..15).fold(event(0), |inner, _| not(inner));
    fresh(1, wait(tower), &[(&[0], None), (&[], at(0, 0))]);
    let four = wait(or(and(event(0), event(1)), not(or(event(2), event(3)))));
    fresh(4, four, &[(&[0, 1], None), (&[2], at(0, 0)), (&[], at(0, 0)), (&[0], at(0, 1)), (&[0, 2], at(0, 1))]);
    fresh(1, wait(and(event(0), not(event(0)))), &[(&[0], None), (&[], at(0, 0))]);
    fresh(1, wait(or(event(0), not(event(0)))), &[(&[0], None), (&[], at(0, 0))]);
    // Example 6: Seq(Await c0, Await c1), c1 the middle of c0.
    let table =
        read_hex(b"0300000000030800000000010800000100010100000200000001000300020001001a0008").expect("hexadecimal");
    let mut play = Play { state: vec![0; 12], store: vec![0; 2], table, atoms: vec![], waits: None };
    play.instant(&[0], 1, "STOP", &[0], &[]);
    assert_eq!((play.phases(), play.waits), (vec![0, 0, 0], None));
    play.instant(&[], 2, "STOP", &[], &[]);
    assert_eq!((play.phases(), play.waits), (vec![0, 3, 0], at(1, 0)));
    play.instant(&[0], 1, "TERM", &[0], &[]);
    assert_eq!((play.phases(), play.waits), (vec![3, 0, 0], None));
}

// The example of L5 that waits: a fresh body is begun and waits.
#[test]
fn a_loop_waits() {
    let mut play = Play::new(1, forever(seq(wait(event(0)), stop())));
    for _ in 0..2 {
        play.instant(&[0], 1, "STOP", &[0], &[]);
        assert_eq!((play.phases(), play.waits), (vec![1, 2, 0, 3], None));
    }
    play.instant(&[], 2, "STOP", &[], &[]);
    assert_eq!((play.phases(), play.waits), (vec![1, 0, 0, 0], at(2, 0)));
}

// L1.5: many passes, but the end never declared.
#[test]
fn many_passes_without_an_end() {
    let mut play = Play::new(2, par(wait(event(1)), par(wait(event(0)), seq(generate(0), generate(1)))));
    play.instant(&[], 2, "TERM", &[0, 1], &[]);
    assert_eq!(play.waits, None);
}

// An Until* and a test within a scope that were met in the pass after the end aren't named.
#[test]
fn not_the_pass_after_the_end() {
    fresh(2, until(not(event(1)), wait(event(0)), nothing()), &[(&[], at(1, 0))]);
    fresh(2, local(0, until(event(0), control(1, stop()), nothing())), &[(&[], at(2, 1)), (&[1], at(1, 0))]);
}

/// The node at an index, with the names that Locals around it bind.
fn find(node: &Node, index: usize, mut bound: Vec<u16>) -> Option<(&Node, Vec<u16>)> {
    if node.at == index {
        return Some((node, bound));
    }
    if let Written::Local(s, _) = &node.written {
        bound.push(*s);
    }
    below(node).into_iter().find_map(|child| find(child, index, bound.clone()))
}

/// The events that a test names.
fn named(node: &Node) -> String {
    match &node.written {
        Written::Await(c) | Written::When(c, ..) | Written::Until(c, ..) => c.to_string(),
        Written::Control(s, _) | Written::Freezable(s, _) => s.to_string(),
        _ => panic!("no test: {node:?}"),
    }
}

// The node is a test, its event one that it names and, unless a Local binds it, one that the report lacks.
#[test]
fn the_fields_fit() {
    let (mut waiting, mut local) = (0, 0);
    for line in waits::lines(4_000, 8).chain(edges::lines()) {
        let answer = lines::answer(line.as_bytes());
        let (asked, told): (Vec<&str>, Vec<&str>) = (line.split(' ').collect(), answer.split(' ').collect());
        if asked[0] != "instant" || told.len() != 13 || told[8] == "4096" {
            assert!(told.len() != 13 || told[9] == "1024");
            continue;
        }
        let program = table::read(&read_hex(asked[1].as_bytes()).expect("hexadecimal")).expect("accepted");
        let (node, bound) = find(&program.root, told[8].parse().expect("a number"), vec![]).expect("a node");
        assert!(named(node).split(|c: char| !c.is_ascii_digit()).any(|word| word == told[9]), "{line}");
        let hidden = bound.iter().any(|s| s.to_string() == told[9]);
        assert!(hidden || told[2].split(',').all(|event| event != told[9]), "{line}");
        waiting += 1;
        local += usize::from(hidden);
    }
    assert!(waiting > 2_000 && local > 200, "{waiting} {local}");
}
