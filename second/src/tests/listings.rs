//! The listing program: P's listing and the readings taken; and the program for people (L1).

use super::*;
use crate::listing;
use crate::make::draft::short::*;

fn listing(table: &[u8], input: &[u8]) -> String {
    let mut out = Vec::new();
    listing::play(table, input, &mut out).expect("memory takes all");
    String::from_utf8(out).expect("a listing is text")
}

fn explained(table: &[u8], input: &[u8]) -> String {
    let mut out = Vec::new();
    listing::explain(table, input, &mut out).expect("memory takes all");
    String::from_utf8(out).expect("a listing is text")
}

/// P of 01.
fn p() -> Vec<u8> {
    Records::new(2, &par(seq(wait(event(0)), seq(atom(7), generate(1))), wait(event(1)))).bytes()
}

/// A program that waits for good and keeps what is handed in.
fn patient(events: u16) -> Vec<u8> {
    Records::new(events, &forever(stop())).bytes()
}

#[test]
fn listing_of_p() {
    assert_eq!(listing(&p(), b"\n0\n1\n"), "1 2 STOP - -\n2 1 TERM 0,1 7\n3 1 TERM 1 -\n");
}

#[test]
fn e1_numbers_too_great() {
    let text = listing(&patient(9), b"8\n9\n1023 12 9\n1024\n9 1024\n");
    assert_eq!(text, "1 1 STOP 8 -\n2 refused 11 9\n3 refused 11 9\n4 bad-line\n5 bad-line\n");
}

#[test]
fn e2_malformed_lines() {
    for line in ["00", "01", "+1", "\t1", "1\t2", "1,2", "1\r", "\0", "1\0", " 1", "1 ", "1  2", " ", "x", "-", "1 x"] {
        assert_eq!(listing(&patient(9), format!("{line}\n").as_bytes()), "1 bad-line\n", "{line:?}");
    }
    assert_eq!(listing(&patient(9), b"0 3 0 3 3\n"), "1 1 STOP 0,3 -\n");
    assert_eq!(listing(&patient(9), b"\xff\n"), "1 bad-line\n");
}

#[test]
fn e3_long_lines() {
    // 1,365 numbers of two digits and their spaces make 4,094 bytes.
    let line = vec!["10"; 1_365].join(" ");
    let input = format!("{line} 7\n{line} 77\n{line} 7 7\n0\n{line} 7");
    assert_eq!(
        listing(&patient(11), input.as_bytes()),
        "1 1 STOP 7,10 -\n2 bad-line\n3 bad-line\n4 1 STOP 0 -\n5 1 STOP 7,10 -\n"
    );
    assert_eq!(listing(&patient(11), format!("{line} 77").as_bytes()), "1 bad-line\n");
    assert_eq!(listing(&patient(11), &[b'0'; 100_000]), "1 bad-line\n");
}

#[test]
fn e4_last_lines() {
    assert_eq!(listing(&patient(1), b"0\n"), "1 1 STOP 0 -\n");
    assert_eq!(listing(&patient(1), b"0"), "1 1 STOP 0 -\n");
    assert_eq!(listing(&patient(1), b"\n"), "1 1 STOP - -\n");
    assert_eq!(listing(&patient(1), b""), "");
    assert_eq!(listing(&patient(1), b"0\n\n"), "1 1 STOP 0 -\n2 1 STOP - -\n");
}

#[test]
fn e5_refused_line() {
    assert_eq!(listing(&patient(9), b"\n\n\n9\n"), "1 1 STOP - -\n2 1 STOP - -\n3 1 STOP - -\n4 refused 11 9\n");
}

// Neither a bad line nor a refusal moves the state.
#[test]
fn state_stays() {
    let table = Records::new(1, &seq(stop(), atom(3))).bytes();
    assert_eq!(listing(&table, b"\n7\nx\n\n"), "1 1 STOP - -\n2 refused 11 7\n3 bad-line\n4 1 TERM - 3\n");
}

#[test]
fn e6_refused_table() {
    assert_eq!(listing(&Records::new(1, &forever(wait(event(0)))).bytes(), b"0\n0\n"), "table refused 7 0\n");
}

#[test]
fn e7_table_that_cannot_be_read() {
    assert_eq!(listing(&crate::read_table(std::path::Path::new("no/such/table.bin")), b"\n"), "table refused 1 0\n");
    assert_eq!(listing(&crate::read_table(std::path::Path::new(".")), b"\n"), "table refused 1 0\n");
    assert_eq!(listing(&[0; 32_779], b"\n"), "table refused 1 0\n");
    assert_eq!(listing(&[0; 32_778], b"\n"), "table refused 2 0\n");
}

#[test]
fn e9_line_numbers_go_on() {
    let text = listing(&patient(1), &[b'\n'; 65_537]);
    assert!(text.ends_with("\n65535 1 STOP - -\n65536 1 STOP - -\n65537 1 STOP - -\n"));
}

// README's install: it waits for event 2 until that is announced beside event 1.
#[test]
fn an_install_that_hangs() {
    let both = wait(and(event(1), event(2)));
    let install = seq(atom(1), seq(wait(event(0)), seq(atom(2), seq(both, atom(3)))));
    assert_eq!(
        explained(&Records::new(3, &install).bytes(), b"\n0\n1\n1\n1 2\n"),
        "1 2 STOP - 1\nwaits at node 3 in Jr.Await(0) for event 0\n\
         2 2 STOP 0 2\nwaits at node 7 in Jr.Await((1 and 2)) for event 1\n\
         3 2 STOP 1 -\nwaits at node 7 in Jr.Await((1 and 2)) for event 2\n\
         4 2 STOP 1 -\nwaits at node 7 in Jr.Await((1 and 2)) for event 2\n\
         5 1 TERM 1,2 3\n"
    );
}

// Each form that can wait, and the test of the request's own example.
#[test]
fn forms_that_wait() {
    let of = |program: Draft| explained(&Records::new(9, &program).bytes(), b"0\n");
    assert_eq!(
        of(wait(and(event(0), not(event(5))))),
        "1 2 STOP 0 -\nwaits at node 0 in Jr.Await((0 and (not 5))) for event 5\n"
    );
    assert_eq!(
        of(when(or(event(3), event(4)), stop(), stop())),
        "1 2 STOP 0 -\nwaits at node 0 in Jr.When((3 or 4), ..) for event 3\n"
    );
    assert_eq!(of(until(event(8), stop(), atom(1))), "1 2 STOP 0 -\nwaits at node 0 in Jr.Until(8, ..) for event 8\n");
    assert_eq!(of(control(7, stop())), "1 2 STOP 0 -\nwaits at node 0 in Jr.Control(7, ..) for event 7\n");
}

// Nothing is added where the end wasn't declared, to a bad or a refused line, or to a refused table.
#[test]
fn nothing_to_explain() {
    assert_eq!(explained(&p(), b"0\n2\nx\n"), "1 1 TERM 0,1 7\n2 refused 11 2\n3 bad-line\n");
    assert_eq!(explained(&[], b"0\n"), "table refused 1 0\n");
}
