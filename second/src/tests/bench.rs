//! The bench list K1 to K12 of 01.

use super::*;
use crate::make::draft::short::*;

/// The left branch of P.
fn p_left() -> Draft {
    seq(wait(event(0)), seq(atom(7), generate(1)))
}

#[test]
fn k1_nothing() {
    let table = [0, 0, 0, 0, 0, 1, 0, 1, 0, 0, 0, 1, 0, 6, 0, 0];
    assert_eq!(Records::new(1, &nothing()).bytes(), table);
    assert_eq!(instant::check(&table), figures(0, 0, 1));
    Play::new(1, nothing()).instant(&[], 1, "TERM", &[], &[]);
}

#[test]
fn k2_stop() {
    let mut play = Play::new(1, stop());
    play.instant(&[], 1, "STOP", &[], &[]);
    play.instant(&[], 1, "TERM", &[], &[]);
}

#[test]
fn k3_p() {
    let mut play = Play::new(2, par(p_left(), wait(event(1))));
    play.instant(&[], 2, "STOP", &[], &[]);
    play.instant(&[0], 1, "TERM", &[0, 1], &[7]);
    play.instant(&[1], 1, "TERM", &[1], &[]);
}

#[test]
fn k4_p_exchanged() {
    Play::new(2, par(wait(event(1)), p_left())).instant(&[0], 2, "TERM", &[0, 1], &[7]);
}

#[test]
fn k5_when_and_generate() {
    Play::new(2, par(when(event(1), atom(1), atom(2)), generate(1))).instant(&[], 2, "TERM", &[1], &[1]);
}

#[test]
fn k6_when_alone() {
    let mut play = Play::new(2, when(event(1), atom(1), atom(2)));
    play.instant(&[], 2, "STOP", &[], &[]);
    play.instant(&[], 1, "TERM", &[], &[2]);
}

#[test]
fn k7_until_not() {
    let program = || until(not(event(0)), stop(), atom(5));
    let mut play = Play::new(1, program());
    play.instant(&[0], 1, "STOP", &[0], &[]);
    assert_eq!(play.phases(), [0, 3, 0]);
    let mut play = Play::new(1, program());
    play.instant(&[], 2, "STOP", &[], &[]);
    assert_eq!(play.phases(), [2, 0, 0]);
}

#[test]
fn k8_loops() {
    assert_eq!(check(1, forever(wait(event(0)))), refused(7, 0));
    assert_eq!(check(1, forever(seq(wait(event(0)), stop()))), figures(0, 0, 7));
}

#[test]
fn k9_local() {
    let mut play = Play::new(1, local(0, par(wait(event(0)), generate(0))));
    play.instant(&[], 2, "TERM", &[], &[]);
}

#[test]
fn k10_repeat() {
    Play::new(1, repeat(3, atom(4))).instant(&[], 1, "TERM", &[], &[4, 4, 4]);
    Play::new(1, repeat(0, atom(4))).instant(&[], 1, "TERM", &[], &[]);
}

#[test]
fn k11_control() {
    Play::new(2, control(0, generate(1))).instant(&[], 2, "STOP", &[], &[]);
    Play::new(2, control(0, generate(1))).instant(&[0], 1, "TERM", &[0, 1], &[]);
}

#[test]
fn k12_limits() {
    assert_eq!(check(1, repeat(4_094, generate(0))), figures(4_094, 0, 4_095));
    assert_eq!(check(1, repeat(4_095, generate(0))), refused(8, 0));
    assert_eq!(check(1, repeat(4_096, atom(0))), figures(0, 4_096, 4_097));
    assert_eq!(check(1, repeat(4_097, atom(0))), refused(8, 0));
    let controls = |times| (0..times).fold(nothing(), |inner, _| control(0, inner));
    assert_eq!(check(1, controls(63)), figures(0, 0, 64));
    assert_eq!(check(1, controls(64)), refused(6, 64));
}
