//! L10: a thousand events. Its examples, typed in by their bytes, and each kind byte of a configuration.

use super::*;
use crate::lines;
use crate::make::draft::short::*;
use crate::words::hex;

/// Sixteen values, all 0.
const ZEROS: &str = "00000000000000000000000000000000";

fn says(line: &str, wanted: &str) {
    assert_eq!(lines::answer(line.as_bytes()), wanted, "{line}");
}

// Example 1: V 1,024; the record is 30 ff 00 01; none is 1,024.
#[test]
fn the_last_event() {
    let table = "08000000000130ff0001000100010400000a0004";
    assert_eq!(hex(&Records::new(1_024, &wait(event(1_023))).bytes()), table);
    says(&format!("check {table}"), "0 0 0 0 1 0");
    says(&format!("instant {table} 00000000 - {ZEROS} - 0000"), "0 0 - 0 1024 0 0 2 0 1023 00000000 - 0000");
    says(&format!("instant {table} 00000000 1023 {ZEROS} - 0000"), "0 0 1023 1 1023 0 1 1 4096 1024 03000000 - 0000");
}

// Examples 2 to 6: the whole number is below V; only an event's kind byte may be 16, 32 or 48.
#[test]
fn kind_bytes() {
    for table in [
        "08000000000130ff00010001000103ff000a0004",
        "08000000000110000001000100010100000a0004",
        "0800000000011100000200000001000100020258000e0008",
        "08000000000140000001000100010400000a0004",
    ] {
        says(&format!("check {table}"), "4 0 0 0 0 0");
    }
    let table = "08000000000110000001000100010101000a0004";
    says(&format!("check {table}"), "0 0 0 0 1 0");
    says(&format!("instant {table} 00000000 256 {ZEROS} - 0000"), "0 0 256 1 256 0 1 1 4096 1024 03000000 - 0000");
}

// Examples 7 to 10: a node's argument, refusals 2, 5 and 11.
#[test]
fn other_limits() {
    let table = "070003ff000100010000040000060000";
    says(&format!("check {table}"), "0 0 1 0 1 0");
    says(&format!("instant {table} 00000000 5 {ZEROS} - 0000"), "0 0 5,1023 2 5 0 1 1 4096 1024 03000000 - 0000");
    says("check 07000100000100010000010000060000", "5 0 0 0 0 0");
    says("check 01000000000100010000040100060000", "2 0 0 0 0 0");
    let table = "01000000000100010000012c00060000";
    says(
        &format!("instant {table} 00000000 1000,300,299 {ZEROS} - 0000"),
        "11 300 - 0 1024 0 0 0 4096 1024 00000000 - 0000",
    );
}

// Example 11: the digit that makes it 1,024 can't go on.
#[test]
fn texts() {
    let table = "08000000000130ff0001000100010400000a0004";
    let [good, bad] = ["Jr.Await(1023)", "Jr.Await(1024)"].map(|text| hex(text.as_bytes()));
    says(&format!("read {good} {}", "00".repeat(20)), &format!("0 0 20 {table}"));
    says(&format!("read {bad} 00"), "21 12 0 00");
    says(&format!("print {table} {}", "00".repeat(14)), &format!("0 0 14 {good}"));
}

// L10.1: of the 256 kind bytes four are events'; such a record has size 1 and height 1.
#[test]
fn every_kind_byte() {
    for kind in 0..=255 {
        let lone = Records::raw(1_024, &[(8, 0, 1)], &[(kind, 0, 1)]);
        let good = matches!(kind, 0 | 16 | 32 | 48);
        assert_eq!(instant::check(&lone.bytes()), if good { figures(0, 0, 1) } else { refused(4, 0) }, "{kind}");
        let under = Records::raw(1_024, &[(8, 0, 1)], &[(kind, 0, 2), (0, 0, 1)]);
        assert_eq!(instant::check(&under.bytes()), if kind == 1 { figures(0, 0, 1) } else { refused(4, 0) }, "{kind}");
    }
    let tower = |times: usize| (0..times).fold(event(1_023), |inner, _| not(inner));
    assert_eq!(check(1_024, wait(tower(15))), figures(0, 0, 1));
    assert_eq!(check(1_024, wait(tower(16))), refused(4, 0));
}

// An event is another than the one of the same event byte.
#[test]
fn upper_parts_differ() {
    for (s, t) in [(3, 259), (259, 3), (515, 771), (1_023, 767)] {
        let mut play = Play::new(1_024, par(wait(event(s)), generate(t)));
        play.instant(&[], 3, "STOP", &[t], &[]);
        assert_eq!(play.waits, Some(Wait { node: 1, event: s }));
        let mut play = Play::new(1_024, local(s, par(wait(event(s)), generate(t))));
        play.instant(&[s], 3, "STOP", &[s.min(t), s.max(t)], &[]);
    }
}
