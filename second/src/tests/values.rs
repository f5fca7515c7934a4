//! L14: what the box is asked. Its examples, typed in, and what values may and may not change.

use super::*;
use crate::lines;
use crate::make::draft::short::*;
use crate::make::{calls, values as asking};
use crate::state::below;
use crate::table::{self, Node, Written};
use crate::words::{hex, read_hex};

/// Zeros, but for these values.
fn values(given: &[(usize, u8)]) -> Values {
    let mut values = Values::default();
    for &(number, value) in given {
        values[number] = value;
    }
    values
}

/// A state as the examples print it: each node's phase and count.
fn state(cells: &[(u8, u16)]) -> Vec<u8> {
    cells.iter().flat_map(|&(phase, count)| [[phase, 0], count.to_be_bytes()].concat()).collect()
}

impl Play {
    /// Runs an instant of one pass without events, with these values, that must answer this flag and leave these atoms and this state.
    fn given(&mut self, given: &[(usize, u8)], answer: &str, atoms: &[u16], cells: &[(u8, u16)]) {
        let report = self.ask(&[], values(given)).expect("no refusal");
        let flag = if report.finished { "TERM" } else { "STOP" };
        assert_eq!((report.passes, flag, report.waits), (1, answer, None));
        assert_eq!(report.events, Events::none());
        assert_eq!((&self.atoms[..], &self.state), (atoms, &state(cells)));
    }
}

/// A state of a finished program.
fn done(nodes: usize) -> Vec<(u8, u16)> {
    (0..nodes).map(|node| (if node == 0 { 3 } else { 0 }, 0)).collect()
}

// Example 1: nonzero means the first branch.
#[test]
fn nonzero_is_the_first() {
    let program = || choose(3, atom(1), atom(2));
    Play::new(1, program()).given(&[], "TERM", &[2], &done(3));
    Play::new(1, program()).given(&[(3, 255)], "TERM", &[1], &done(3));
    Play::new(1, program()).given(&[(3, 1)], "TERM", &[1], &done(3));
    // The other fifteen say nothing.
    let mut others = [9; 16];
    others[3] = 0;
    let mut play = Play::new(1, program());
    assert!(play.ask(&[], others).is_ok());
    assert_eq!(play.atoms, [2]);
}

// Example 2: chosen when reached, the second instant's value changes nothing.
#[test]
fn a_choice_is_kept() {
    let mut play = Play::new(1, choose(0, stop(), atom(1)));
    play.given(&[(0, 1)], "STOP", &[], &[(1, 0), (3, 0), (0, 0)]);
    play.given(&[], "TERM", &[], &done(3));
}

// Example 3: the lesser of cap and value; the figure uses the cap.
#[test]
fn the_lesser_of_cap_and_value() {
    let program = || repeat_ext(2, 5, atom(7));
    assert_eq!(check(1, program()), figures(0, 5, 6));
    Play::new(1, program()).given(&[(2, 3)], "TERM", &[7, 7, 7], &done(2));
    Play::new(1, program()).given(&[(2, 9)], "TERM", &[7, 7, 7, 7, 7], &done(2));
    Play::new(1, program()).given(&[], "TERM", &[], &done(2));
}

// Example 4: the value is read once, when it begins; the body stops, so the figure takes 2 of the cap's 4.
#[test]
fn a_value_is_read_once() {
    let program = || repeat_ext(0, 4, seq(stop(), atom(1)));
    assert_eq!(check(1, program()), figures(0, 2, 7));
    let mut play = Play::new(1, program());
    play.given(&[(0, 2)], "STOP", &[], &[(1, 1), (0, 0), (3, 0), (0, 0)]);
    play.given(&[(0, 200)], "STOP", &[1], &[(1, 0), (0, 0), (3, 0), (0, 0)]);
    play.given(&[(0, 200)], "TERM", &[1], &done(4));
}

// Examples 5 to 7: RepeatExt never counts as stopping, If where both branches do.
#[test]
fn what_stops() {
    assert_eq!(check(1, forever(repeat_ext(0, 1, stop()))), refused(7, 0));
    assert_eq!(check(1, forever(choose(0, stop(), stop()))), figures(0, 0, 5));
    assert_eq!(check(1, forever(choose(0, stop(), nothing()))), refused(7, 0));
    assert_eq!(check(1, forever(choose(0, nothing(), stop()))), refused(7, 0));
}

// Examples 8 to 10: sixteen values, caps up to 255; kind 16 is none.
#[test]
fn arguments() {
    let says = |line: &str, wanted: &str| assert_eq!(lines::answer(line.as_bytes()), wanted, "{line}");
    says("check 0e000010000301000000000101000000000100030000000100120000", "5 0 0 0 0 0");
    says("check 0e00000f000301000000000101000000000100030000000100120000", "0 0 0 0 2 0");
    says("check 0f0010000002010000000001000200000001000c0000", "5 0 0 0 0 0");
    says("check 0f000fff0002010000000001000200000001000c0000", "0 0 0 0 3 0");
    for kind in [16, 17, 255] {
        for nodes in [&[(kind, 0, 1)][..], &[(kind, 0, 2), (1, 0, 1)], &[(kind, 0, 3), (1, 0, 1), (1, 0, 1)]] {
            assert_eq!(instant::check(&Records::raw(1, nodes, &[]).bytes()), refused(5, 0));
        }
    }
}

// Examples 11 and 12: its count is below the cap, and a cap of 0 never begins.
#[test]
fn counts_at_rest() {
    let from = |cap, count| Play::from(1, repeat_ext(0, cap, stop()), &[(0, 1), (3, count)]);
    assert_eq!(from(2, 2).call(&[]), refused(10, 0));
    let mut play = from(2, 1);
    play.state[4] = 3;
    play.given(&[], "STOP", &[], &[(1, 0), (3, 0)]);
    assert_eq!(check(1, repeat_ext(0, 0, stop())), figures(0, 0, 1));
    assert_eq!(from(0, 0).call(&[]), refused(10, 0));
}

// Example 13: as When, the larger branch.
#[test]
fn the_larger_branch() {
    assert_eq!(check(1, choose(0, repeat(3, atom(1)), atom(2))), figures(0, 3, 5));
    assert_eq!(check(1, choose(0, atom(2), repeat(3, atom(1)))), figures(0, 3, 5));
}

// Example 14: each round's If is a new one and asks anew; the round begun before keeps its choice.
#[test]
fn each_round_asks_anew() {
    let program = || repeat_ext(0, 3, choose(1, stop(), atom(4)));
    Play::new(1, program()).given(&[(0, 3)], "TERM", &[4, 4, 4], &done(4));
    let mut play = Play::new(1, program());
    play.given(&[(0, 3), (1, 1)], "STOP", &[], &[(1, 2), (1, 0), (3, 0), (0, 0)]);
    play.given(&[], "TERM", &[4, 4], &done(4));
}

// Example 15: the value's number first, then the cap.
#[test]
fn texts() {
    let read = |text: &str, room: &str| lines::answer(format!("read {} {room}", hex(text.as_bytes())).as_bytes());
    assert_eq!(read("Jr.If(16, Jr.Stop(), Jr.Stop())", "00"), "21 7 0 00");
    assert_eq!(read("Jr.RepeatExt(1, 256, Jr.Stop())", "00"), "21 18 0 00");
    let table = "0f000fff0002010000000001000200000001000c0000";
    assert_eq!(read("Jr.RepeatExt(15, 255, Jr.Stop())", &"00".repeat(22)), format!("0 0 22 {table}"));
}

// L14.1: m is min(cap, 2) where the body stops, else the cap.
#[test]
fn figures_by_the_cap() {
    for (cap, times) in [(0, 0), (1, 1), (2, 2), (3, 2), (255, 2)] {
        assert_eq!(check(1, repeat_ext(9, cap, stop())), figures(0, 0, 1 + times));
        assert_eq!(check(1, repeat_ext(9, cap, generate(0))), figures(u64::from(cap), 0, 1 + u64::from(cap)));
        // A RepeatExt within doesn't stop, whatever its body.
        assert_eq!(check(1, repeat_ext(9, cap, repeat_ext(0, 1, stop()))), figures(0, 0, 1 + 2 * u64::from(cap)));
    }
    let heavy = || repeat(65_535, repeat(65_535, generate(0)));
    assert_eq!(check(1, repeat_ext(0, 0, heavy())), figures(0, 0, 1));
    assert_eq!(check(1, repeat_ext(0, 1, heavy())), refused(8, 0));
}

// L14.2: chosen in the pass that reaches it, and run on in that pass; what waits is a test within it.
#[test]
fn a_choice_among_passes() {
    let mut play =
        Play::new(2, par(choose(0, seq(atom(1), wait(event(1))), atom(2)), seq(wait(event(0)), generate(1))));
    let report = play.ask(&[0], values(&[(0, 7)])).expect("no refusal");
    assert_eq!((report.passes, report.finished, &play.atoms[..]), (2, true, &[1][..]));
    let mut play = Play::new(2, choose(0, wait(event(1)), atom(2)));
    let report = play.ask(&[], values(&[(0, 7)])).expect("no refusal");
    assert_eq!((report.passes, report.waits), (2, Some(Wait { node: 1, event: 1 })));
    assert_eq!(play.phases(), [1, 0, 0]);
    // Begun by a When at the end, it is reached in the next instant, and asks then.
    let mut play = Play::new(1, when(event(0), stop(), choose(0, atom(1), atom(2))));
    assert!(play.ask(&[], values(&[(0, 1)])).is_ok_and(|report| !report.finished));
    assert_eq!((&play.atoms[..], &play.phases()[..]), (&[][..], &[2, 0, 0, 0, 0][..]));
    assert!(play.call(&[]).is_ok_and(|report| report.finished));
    assert_eq!(play.atoms, [2]);
}

// L14.3: each activation reads anew.
#[test]
fn each_activation_reads_anew() {
    let mut play = Play::new(1, repeat(2, repeat_ext(0, 5, seq(atom(1), stop()))));
    play.given(&[(0, 1)], "STOP", &[1], &[(1, 1), (1, 0), (2, 0), (0, 0), (3, 0)]);
    play.given(&[(0, 3)], "STOP", &[1], &[(1, 0), (1, 2), (2, 0), (0, 0), (3, 0)]);
    play.given(&[], "STOP", &[1], &[(1, 0), (1, 1), (2, 0), (0, 0), (3, 0)]);
}

/// Whether a node or one below it asks for a value.
fn asks(node: &Node) -> bool {
    matches!(node.written, Written::If(..) | Written::RepeatExt(..)) || below(node).into_iter().any(asks)
}

/// The line with other values.
fn with_values(line: &[&str], given: Values) -> String {
    let given = hex(&given);
    [&line[..4], &[&given], &line[5..]].concat().join(" ")
}

// A program without the two forms doesn't depend on the values; of those with one, many do.
#[test]
fn who_depends_on_the_values() {
    let (mut plain, mut depend) = (0, 0);
    for line in calls::lines(4_000, 7).chain(asking::lines(2_000, 7)) {
        let words: Vec<&str> = line.split(' ').collect();
        let answer = lines::answer(line.as_bytes());
        if words[0] != "instant" || words.len() != 7 || !answer.starts_with("0 ") {
            continue;
        }
        let table = read_hex(words[1].as_bytes()).expect("printed hexadecimal");
        let asked = asks(&table::read(&table).expect("accepted").root);
        for given in [[0; 16], [1; 16], [255; 16], values(&[(0, 2), (2, 1)])] {
            let same = lines::answer(with_values(&words, given).as_bytes()) == answer;
            assert!(same || asked, "{line}");
            depend += usize::from(!same);
        }
        plain += usize::from(!asked);
    }
    assert!(plain > 500 && depend > 1_000, "{plain} {depend}");
}

// What no pass asks for says nothing: with each value cut to 1 where only Ifs ask, the answer is the same; and a value above every cap is the cap.
#[test]
fn what_counts_of_a_value() {
    let mut compared = 0;
    for line in asking::lines(2_000, 8) {
        let words: Vec<&str> = line.split(' ').collect();
        if words[0] != "instant" || words.len() != 7 {
            continue;
        }
        let (Some(table), Some(given)) = (read_hex(words[1].as_bytes()), read_hex(words[4].as_bytes())) else {
            continue;
        };
        let (Ok(program), Ok(given)) = (table::read(&table), Values::try_from(given)) else { continue };
        let mut most = [1; 16];
        caps(&program.root, &mut most);
        let cut: Values = std::array::from_fn(|number| given[number].min(most[number]));
        assert_eq!(lines::answer(with_values(&words, cut).as_bytes()), lines::answer(line.as_bytes()), "{line}");
        compared += usize::from(cut != given);
    }
    assert!(compared > 300, "{compared}");
}

/// The greatest cap under which each value is read.
fn caps(node: &Node, most: &mut Values) {
    if let Written::RepeatExt(number, cap, _) = node.written {
        let known = &mut most[usize::from(number)];
        *known = cap.max(*known);
    }
    below(node).into_iter().for_each(|child| caps(child, most));
}
