//! L2: what stops, by the values that a test can have before the end. Its examples, typed in, and what its rule must keep.

use super::waits::at;
use super::*;
use crate::config::Config;
use crate::env::Env;
use crate::figures;
use crate::make::draft::short::*;
use crate::make::loops;
use crate::rules::Course;
use crate::state;
use crate::table::{self, Node, Written};
use crate::term::Flag;
use std::rc::Rc;

// Example 1, with its two instants.
#[test]
fn a_loop_over_when() {
    let program = || forever(when(event(0), stop(), nothing()));
    assert_eq!(check(1, program()), figures(0, 0, 5));
    let mut play = Play::new(1, program());
    play.instant(&[], 2, "STOP", &[], &[]);
    assert_eq!(play.waits, at(1, 0));
    assert_eq!(play.state, [1, 0, 0, 0, 2, 0, 0, 0, 0, 0, 0, 0, 0, 0, 0, 0]);
    play.instant(&[0], 1, "STOP", &[0], &[]);
    assert_eq!(play.waits, None);
    assert_eq!(play.state, [1, 0, 0, 0, 1, 0, 0, 0, 3, 0, 0, 0, 0, 0, 0, 0]);
}

// Example 2, with its two instants.
#[test]
fn a_loop_over_await() {
    let program = || forever(wait(not(event(0))));
    assert_eq!(check(1, program()), figures(0, 0, 3));
    let mut play = Play::new(1, program());
    play.instant(&[], 2, "STOP", &[], &[]);
    assert_eq!(play.waits, at(1, 0));
    assert_eq!(play.state, [1, 0, 0, 0, 3, 0, 0, 0]);
    play.instant(&[0], 1, "STOP", &[0], &[]);
    assert_eq!(play.state, [1, 0, 0, 0, 0, 0, 0, 0]);
}

// Examples 3 to 9.
#[test]
fn accepted_or_7() {
    assert_eq!(check(1, forever(wait(event(0)))), refused(7, 0));
    assert_eq!(check(2, forever(wait(and(event(0), not(event(1)))))), figures(0, 0, 3));
    assert_eq!(check(2, forever(wait(or(event(0), not(event(1)))))), refused(7, 0));
    assert_eq!(check(1, forever(until(not(event(0)), stop(), nothing()))), figures(0, 0, 7));
    assert_eq!(check(1, forever(until(event(0), stop(), nothing()))), refused(7, 0));
    assert_eq!(check(1, forever(when(not(event(0)), nothing(), stop()))), figures(0, 0, 5));
    assert_eq!(check(1, repeat(9, seq(generate(0), wait(not(event(0)))))), figures(2, 0, 7));
}

// L2.1: m is min(count, 2) also where the body stops by a test only.
#[test]
fn counts_over_a_test() {
    let gates: [fn() -> Draft; 3] =
        [|| wait(not(event(0))), || when(event(0), stop(), nothing()), || until(not(event(0)), stop(), nothing())];
    for gate in gates {
        let Ok(Figures { w, .. }) = check(1, gate()) else { panic!("accepted") };
        for (count, times) in [(0, 0), (1, 1), (2, 2), (3, 2), (65_535, 2)] {
            assert_eq!(check(1, repeat(count, gate())), figures(0, 0, 1 + times * w));
        }
        assert_eq!(check(1, repeat(4_095, seq(generate(0), gate()))).map(|found| found.g), Ok(2));
        assert_eq!(check(1, repeat(9, repeat(2_047, seq(generate(0), wait(event(0)))))), refused(8, 0));
    }
}

// L2.2: what the form allows, nothing smarter.
#[test]
fn contradictions() {
    let both = || and(event(0), not(event(0)));
    let either = || or(event(0), not(event(0)));
    assert_eq!(check(1, forever(wait(both()))), figures(0, 0, 3));
    assert_eq!(check(1, forever(wait(not(both())))), refused(7, 0));
    assert_eq!(check(1, forever(wait(either()))), refused(7, 0));
    assert_eq!(check(1, forever(wait(not(either())))), figures(0, 0, 3));
    assert_eq!(check(1, forever(when(both(), nothing(), stop()))), figures(0, 0, 5));
    assert_eq!(check(1, forever(when(both(), stop(), nothing()))), refused(7, 0));
    assert_eq!(check(1, forever(when(either(), stop(), nothing()))), figures(0, 0, 5));
    assert_eq!(check(1, forever(when(either(), nothing(), stop()))), refused(7, 0));
}

// Until needs its body, whatever its test; its handler only if the test can be true early.
#[test]
fn until_needs_its_body() {
    for test in [event(0), not(event(0))] {
        assert_eq!(check(1, forever(until(test.clone(), nothing(), stop()))), refused(7, 0));
        assert_eq!(check(1, forever(until(test, stop(), stop()))), figures(0, 0, 7));
    }
    let nested = |test| forever(until(test, wait(not(event(0))), when(event(0), nothing(), stop())));
    assert_eq!(check(1, nested(event(0))), refused(7, 0));
    assert_eq!(check(1, nested(not(event(0)))), figures(0, 0, 9));
}

/// Every configuration of at most this height over events from a number on, each event standing once.
fn once(height: usize, first: u16) -> Vec<(Rc<Config>, u16)> {
    let mut found = vec![(Rc::new(Config::Event(first)), first + 1)];
    if height == 1 {
        return found;
    }
    for (c1, next) in once(height - 1, first) {
        found.push((Rc::new(Config::Not(c1.clone())), next));
        for (c2, next) in once(height - 1, next) {
            found.push((Rc::new(Config::And(c1.clone(), c2.clone())), next));
            found.push((Rc::new(Config::Or(c1.clone(), c2)), next));
        }
    }
    found
}

// Where no event stands twice, a value is early exactly if some events make it so before the end.
#[test]
fn early_is_what_events_can_decide() {
    let cases = once(4, 0);
    assert_eq!(cases.len(), 2_776);
    for (c, events) in cases {
        let sets = (0..1u32 << events).map(|bits| (0..events).filter(|s| bits >> s & 1 == 1).collect());
        let all: Vec<Env> = sets.map(|present| Env { present, eoi: false, moved: false }).collect();
        assert_eq!(c.early(true), all.iter().any(|&e| c.sat(e)), "{c:?}");
        assert_eq!(c.early(false), all.iter().any(|&e| c.unsat(e)), "{c:?}");
    }
}

// A configuration, events standing twice in it or not, has exactly one early value: the one that all events give it.
#[test]
fn one_early_value() {
    let all = Env { present: (0..1_024).collect(), eoi: false, moved: false };
    let mut tests: Vec<Rc<Config>> = once(4, 0).into_iter().map(|(c, _)| c).collect();
    for program in programs() {
        tests.extend(subtree(&program.root).into_iter().filter_map(|node| match &node.written {
            Written::Await(c) | Written::When(c, ..) | Written::Until(c, ..) => Some(c.clone()),
            _ => None,
        }));
    }
    for c in tests {
        assert_eq!((c.early(true), c.early(false)), (c.sat(all), c.unsat(all)), "{c:?}");
    }
}

/// Document 01's rule, before L2.
fn stopped_before(node: &Node) -> bool {
    match &node.written {
        Written::Stop | Written::Loop(_) => true,
        Written::Nothing | Written::Atom(_) | Written::Generate(_) | Written::Await(_) => false,
        Written::Seq(first, second) | Written::Par(first, second) => stopped_before(first) || stopped_before(second),
        Written::When(_, first, second) | Written::Until(_, first, second) => {
            stopped_before(first) && stopped_before(second)
        }
        Written::Control(_, body) | Written::Local(_, body) => stopped_before(body),
        Written::Repeat(count, body) => *count >= 1 && stopped_before(body),
        Written::If(_, first, second) => stopped_before(first) && stopped_before(second),
        Written::RepeatExt(..) | Written::Freezable(..) => false,
    }
}

/// The node and all below it.
fn subtree(node: &Node) -> Vec<&Node> {
    let mut found = vec![node];
    for child in state::below(node) {
        found.extend(subtree(child));
    }
    found
}

/// The programs of random tables round the border of 7, accepted or not.
fn programs() -> impl Iterator<Item = table::Program> {
    loops::tables(3_000, 5).filter_map(|table| table::read(&table).ok())
}

// What stopped before still stops, so every table accepted before is still accepted; the new rule adds to it.
#[test]
fn nothing_is_lost() {
    let mut gained = 0;
    for program in programs() {
        for node in subtree(&program.root) {
            assert!(!stopped_before(node) || figures::stops(node));
            gained += usize::from(figures::stops(node) && !stopped_before(node));
        }
    }
    assert!(gained > 1_000, "{gained}");
}

// The rule's reason: what stops, freshly begun among any events and values, doesn't end in that instant.
#[test]
fn what_stops_does_not_end_at_once() {
    let (mut stopped, mut ended) = (0, 0);
    for program in programs().filter(|program| figures::load(&program.root).is_ok()) {
        for node in subtree(&program.root).into_iter().filter(|node| node.size <= 40) {
            // The two events, and the values of even and of odd number, each there or not.
            for bits in 0..16u8 {
                let handed = (0..2).filter(|s| bits >> s & 1 == 1).collect();
                let values = std::array::from_fn(|number| bits >> (2 + number % 2) & 1);
                let (answer, ..) = instant::passes(state::fresh(node), handed, &mut Course::new(values, &mut || false));
                let finished = answer == Flag::Term;
                assert!(!(finished && figures::stops(node)), "{node:?} {handed:?}");
                stopped += usize::from(figures::stops(node));
                ended += usize::from(finished);
            }
        }
    }
    assert!(stopped > 1_000 && ended > 1_000, "{stopped} {ended}");
}

// Half of the tables round the border are accepted, half are 7, and hardly any has another fault.
#[test]
fn tables_round_the_border() {
    let (mut accepted, mut endless, mut other) = (0, 0, 0);
    for table in loops::tables(2_000, 6) {
        match instant::check(&table).map_err(|refusal| refusal.number) {
            Ok(_) => accepted += 1,
            Err(7) => endless += 1,
            Err(_) => other += 1,
        }
    }
    assert!(accepted > 700 && endless > 700 && other < 300, "{accepted} {endless} {other}");
}
