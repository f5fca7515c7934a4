//! L4: configurations without the call stack. Its examples, typed in by their lines, and what a test of each height says.

use super::*;
use crate::lines;
use crate::make::draft::short::*;
use crate::make::draft::Cond;
use crate::words::hex;

/// Sixteen values, all 0.
const ZEROS: &str = "00000000000000000000000000000000";

/// A fresh instant of a lone Await over V events with these handed in answers this line.
fn await_says(events: u16, cond: Cond, handed: &str, wanted: &str) {
    let table = hex(&Records::new(events, &wait(cond)).bytes());
    assert_eq!(
        lines::answer(format!("instant {table} 00000000 {handed} {ZEROS} - 0000").as_bytes()),
        wanted,
        "{handed}"
    );
}

fn tower(times: usize) -> Cond {
    (0..times).fold(event(0), |inner, _| not(inner))
}

// Examples 1 and 2: height 16, fifteen nots are a not; height 17.
#[test]
fn sixteen_levels() {
    await_says(1, tower(15), "0", "0 0 0 1 0 0 0 1 4096 1024 00000000 - 0000");
    await_says(1, tower(15), "-", "0 0 - 0 1024 0 0 2 0 0 03000000 - 0000");
    assert_eq!(check(1, wait(tower(16))), refused(4, 0));
}

// Example 3: sat early by the left part; right part false, left unknown, false at the end; true at the end only.
#[test]
fn four_events() {
    let cond = || or(and(event(0), event(1)), not(or(event(2), event(3))));
    await_says(4, cond(), "0,1", "0 0 0,1 2 0 0 1 1 4096 1024 03000000 - 0000");
    await_says(4, cond(), "2", "0 0 2 1 2 0 0 2 0 0 00000000 - 0000");
    await_says(4, cond(), "-", "0 0 - 0 1024 0 0 2 0 0 03000000 - 0000");
}

// Examples 4 and 5: an event and its absence, an event or its absence.
#[test]
fn an_event_and_its_absence() {
    let both = || and(event(0), not(event(0)));
    await_says(1, both(), "0", "0 0 0 1 0 0 0 1 4096 1024 00000000 - 0000");
    await_says(1, both(), "-", "0 0 - 0 1024 0 0 2 0 0 00000000 - 0000");
    let either = || or(event(0), not(event(0)));
    await_says(1, either(), "0", "0 0 0 1 0 0 1 1 4096 1024 03000000 - 0000");
    await_says(1, either(), "-", "0 0 - 0 1024 0 0 2 0 0 03000000 - 0000");
}

// Example 6: Seq(Await c0, Await c1) over the records [not, 0]; c1 is the middle of c0.
#[test]
fn the_middle_of_another() {
    let table = "0300000000030800000000010800000100010100000200000001000300020001001a0008";
    for (state, handed, wanted) in [
        ("000000000000000000000000", "0", "0 0 0 1 0 0 0 1 4096 1024 000000000000000000000000 - 0000"),
        ("000000000000000000000000", "-", "0 0 - 0 1024 0 0 2 1 0 000000000300000000000000 - 0000"),
        ("000000000300000000000000", "0", "0 0 0 1 0 0 1 1 4096 1024 030000000000000000000000 - 0000"),
    ] {
        assert_eq!(lines::answer(format!("instant {table} {state} {handed} {ZEROS} - 0000").as_bytes()), wanted);
    }
}

// An even number of nots is none, an odd one is one; heights 1 to 16.
#[test]
fn nots_of_each_height() {
    for times in 0..16 {
        let mut play = Play::new(1, when(tower(times), atom(1), atom(2)));
        play.instant(&[0], 1, "TERM", &[0], &[if times % 2 == 0 { 1 } else { 2 }]);
        let mut play = Play::new(1, when(tower(times), atom(1), atom(2)));
        play.instant(&[], 2, "STOP", &[], &[]);
        assert_eq!(play.phases()[0], if times % 2 == 0 { 2 } else { 1 });
    }
}
