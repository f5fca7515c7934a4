//! Single rules of 000, met by small programs.

use super::*;
use crate::make::draft::short::*;

// Rules 4 and 5.
#[test]
fn seq_runs_on_in_the_same_pass() {
    let mut play = Play::new(1, seq(seq(atom(1), stop()), seq(atom(2), atom(3))));
    play.instant(&[], 1, "STOP", &[], &[1]);
    play.instant(&[], 1, "TERM", &[], &[2, 3]);
}

// Rule 10: a branch flagged STOP isn't run again in the same instant.
#[test]
fn par_does_not_rerun_a_stopped_branch() {
    let mut play = Play::new(2, par(seq(wait(event(0)), atom(1)), par(seq(stop(), atom(2)), generate(0))));
    play.instant(&[], 2, "STOP", &[0], &[1]);
    assert_eq!(play.state[1], 2);
    play.instant(&[], 1, "TERM", &[], &[2]);
}

// Rule 8, by every pair of flags that branches can answer without waiting.
#[test]
fn par_joins_flags() {
    Play::new(1, par(nothing(), nothing())).instant(&[], 1, "TERM", &[], &[]);
    Play::new(1, par(stop(), nothing())).instant(&[], 1, "STOP", &[], &[]);
    Play::new(1, par(nothing(), stop())).instant(&[], 1, "STOP", &[], &[]);
    let mut play = Play::new(1, par(stop(), stop()));
    play.instant(&[], 1, "STOP", &[], &[]);
    assert_eq!(play.state[..4], [0, 0, 0, 0]);
    assert_eq!(play.phases(), [0, 3, 3]);
}

// Rules 12 and 15: a body that ends is begun again in the same pass.
#[test]
fn loops_begin_again() {
    let mut play = Play::new(1, forever(seq(stop(), atom(1))));
    play.instant(&[], 1, "STOP", &[], &[]);
    play.instant(&[], 1, "STOP", &[], &[1]);
    let mut play = Play::new(1, repeat(2, seq(stop(), atom(1))));
    play.instant(&[], 1, "STOP", &[], &[]);
    play.instant(&[], 1, "STOP", &[], &[1]);
    play.instant(&[], 1, "TERM", &[], &[1]);
}

// Rules 17 to 21.
#[test]
fn when_waits_a_turn_after_the_end() {
    let program = || when(and(event(0), not(event(1))), atom(1), atom(2));
    let mut play = Play::new(2, program());
    play.instant(&[0], 2, "STOP", &[0], &[]);
    play.instant(&[], 1, "TERM", &[], &[1]);
    Play::new(2, program()).instant(&[1], 1, "TERM", &[1], &[2]);
}

// Rules 22 to 25.
#[test]
fn await_waits_a_turn_after_the_end() {
    let mut play = Play::new(1, seq(wait(not(event(0))), atom(1)));
    play.instant(&[0], 1, "STOP", &[0], &[]);
    assert_eq!(play.phases(), [0, 0, 0]);
    play.instant(&[], 2, "STOP", &[], &[]);
    assert_eq!(play.phases(), [0, 3, 0]);
    play.instant(&[0], 1, "TERM", &[0], &[1]);
}

// Rule 26: the environment is the body's.
#[test]
fn control_lets_events_out() {
    Play::new(2, par(wait(event(1)), control(0, generate(1)))).instant(&[0], 2, "TERM", &[0, 1], &[]);
}

// Rules 30 to 34: weak preemption, the handler in the same pass if the test is decided in time.
#[test]
fn until_preempts_after_the_body() {
    let mut play = Play::new(1, until(event(0), seq(atom(1), stop()), atom(2)));
    play.instant(&[0], 1, "TERM", &[0], &[1, 2]);
    // Until* waits without running its body again.
    let mut play = Play::new(2, par(until(event(1), seq(atom(1), stop()), atom(2)), seq(wait(event(0)), generate(1))));
    play.instant(&[0], 2, "TERM", &[0, 1], &[1, 2]);
    // False before the end: it stops at once (001).
    let mut play = Play::new(1, until(not(event(0)), seq(stop(), stop()), atom(2)));
    play.instant(&[0], 1, "STOP", &[0], &[]);
    assert_eq!(play.phases(), [0, 0, 3, 0, 0]);
}

// Rule 29: an Until whose body ends doesn't look at its test.
#[test]
fn until_ends_with_its_body() {
    Play::new(1, until(event(0), atom(1), atom(2))).instant(&[0], 1, "TERM", &[0], &[1]);
}

// Rules 35 to 39: the local event is kept between passes and forgotten between instants.
#[test]
fn local_keeps_and_forgets() {
    let body = || par(seq(wait(event(1)), seq(wait(event(0)), atom(1))), seq(generate(0), stop()));
    let mut play = Play::new(2, par(local(0, body()), generate(1)));
    play.instant(&[], 2, "STOP", &[1], &[1]);
    assert_eq!(play.state[4], 0);
    let mut play = Play::new(2, local(0, seq(generate(0), seq(stop(), wait(event(0))))));
    play.instant(&[], 1, "STOP", &[], &[]);
    play.instant(&[], 2, "STOP", &[], &[]);
}
