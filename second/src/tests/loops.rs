//! L5: a Loop whose body has ended begins a fresh one in the same pass, which stops: rules 4 and 12, never 13. Its examples, typed in.

use super::*;
use crate::make::draft::short::*;

/// The state in which node n is in the nth of these phases, all else zero.
fn cells(phases: &[u8]) -> Vec<(usize, u8)> {
    phases.iter().enumerate().map(|(node, &phase)| (4 * node, phase)).collect()
}

// Example 1: the rest ends, a fresh body begins in the same pass and stops.
#[test]
fn a_stop_begun_again() {
    let mut play = Play::from(1, forever(stop()), &cells(&[1, 3]));
    play.instant(&[], 1, "STOP", &[], &[]);
    assert_eq!(play.state, [1, 0, 0, 0, 3, 0, 0, 0]);
}

// Example 2: from a state that no run reaches the rest writes its atom and ends, the fresh body writes one more: A is met.
#[test]
fn as_many_atoms_as_a_says() {
    let program = || forever(par(atom(1), stop()));
    assert_eq!(check(1, program()), figures(0, 2, 7));
    let mut play = Play::from(1, program(), &cells(&[1, 0, 0, 3]));
    play.instant(&[], 1, "STOP", &[], &[1, 1]);
    assert_eq!(play.state, [1, 0, 0, 0, 0, 2, 0, 0, 3, 0, 0, 0, 3, 0, 0, 0]);
}

// Example 3: the inner Loop never ends, so the outer one never begins again.
#[test]
fn a_loop_in_a_loop() {
    for phases in [[1, 1, 3], [0, 0, 0]] {
        let mut play = Play::from(1, forever(forever(stop())), &cells(&phases));
        play.instant(&[], 1, "STOP", &[], &[]);
        assert_eq!(play.state, [1, 0, 0, 0, 1, 0, 0, 0, 3, 0, 0, 0]);
    }
}

// Example 4: in the last instant the fresh body is begun and waits.
#[test]
fn a_fresh_body_that_waits() {
    let mut play = Play::new(1, forever(seq(wait(event(0)), stop())));
    for _ in 0..2 {
        play.instant(&[0], 1, "STOP", &[0], &[]);
        assert_eq!(play.phases(), [1, 2, 0, 3]);
    }
    play.instant(&[], 2, "STOP", &[], &[]);
    assert_eq!(play.phases(), [1, 0, 0, 0]);
}

// Example 5: count 0 and a finished Stop: the Repeat ends, the Loop begins it again with count 1.
#[test]
fn a_repeat_begun_again() {
    let mut play = Play::from(1, forever(repeat(2, stop())), &cells(&[1, 1, 3]));
    play.instant(&[], 1, "STOP", &[], &[]);
    assert_eq!(play.state, [1, 0, 0, 0, 1, 0, 0, 1, 3, 0, 0, 0]);
}
