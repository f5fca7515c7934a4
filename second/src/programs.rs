//! What the programs zap_check, zap_print, zap_read and zap_take print and write, so that the tools over them can be tried with
//! the second program in their place. (zap_run is the listing program, zap_calls the lines of the calls.)

use crate::instant;
use crate::store::{self, Taken};
use crate::table::Refusal;
use crate::text;
use crate::ways;
use crate::words;

/// The bytes of the longest table, and of the longest text that is read or printed.
const TABLE_BYTES: usize = 32_778;
/// The bytes of the longest state.
const STATE_BYTES: usize = 4 * 4_096;
const TEXT_BYTES: usize = 1_048_576;

/// Of the line that fails so many bytes are shown, and so many of these before the byte that does.
const WIDE: usize = 100;
const BEFORE: usize = 60;

/// zap_check: the check's answer as a line.
pub fn check(table: &[u8]) -> String {
    match instant::check(table) {
        Ok(figures) => format!("0 0 {} {} {} {}\n", figures.g, figures.a, figures.w, figures.f),
        Err(Refusal { number, index }) => format!("{number} {index} 0 0 0 0\n"),
    }
}

/// zap_print: the program of a table, nothing behind it.
pub fn print(table: &[u8]) -> Vec<u8> {
    let mut room = vec![0; TEXT_BYTES];
    match text::print(table, &mut room) {
        Ok(length) => room[..length].to_vec(),
        Err(refusal) => table_refused(refusal).into_bytes(),
    }
}

/// zap_read: the table of a text, or what is told of one that is refused.
pub fn read(text: &[u8]) -> Result<Vec<u8>, String> {
    if text.len() > TEXT_BYTES {
        return Err(format!("text longer than {TEXT_BYTES} bytes\n"));
    }
    let mut room = vec![0; TABLE_BYTES];
    match text::read(text, &mut room) {
        Ok(length) => Ok(room[..length].to_vec()),
        Err(Refusal { number: 21, index }) => Err(text_refused(text, index)),
        Err(refusal) => Err(table_refused(refusal)),
    }
}

/// What is left of a store once a piece is taken, and the piece as a table and a state (L8).
#[derive(Debug, PartialEq, Eq)]
pub struct Moved {
    pub table: Vec<u8>,
    pub state: Vec<u8>,
    pub store: Vec<u8>,
}

/// zap_take: the newest piece of the event that is the input's only line, or what is told where there is none.
pub fn take(table: &[u8], store: &[u8], input: &[u8]) -> Result<Moved, String> {
    let line = input.strip_suffix(b"\n").unwrap_or(input);
    let Some(event) = words::event(line) else { return Err("bad-line\n".to_string()) };
    let (mut part, mut state, mut store) = (vec![0; TABLE_BYTES], vec![0; STATE_BYTES], store.to_vec());
    match store::take(table, &mut store, event, &mut part, &mut state) {
        Ok(taken) => {
            let Taken { table: table_bytes, state: state_bytes } = taken;
            Ok(Moved { table: part[..table_bytes].to_vec(), state: state[..state_bytes].to_vec(), store })
        }
        Err(Refusal { number: 25, index }) => Err(format!("store refused 25 {index}\n")),
        Err(Refusal { number: 14, index }) => Err(format!("event refused 14 {index}\n")),
        Err(refusal) => Err(table_refused(refusal)),
    }
}

fn table_refused(Refusal { number, index }: Refusal) -> String {
    format!("table refused {number} {index}\n")
}

/// Where a text fails: its line up to there and on, a caret under the byte, and what could stand there.
fn text_refused(text: &[u8], at: usize) -> String {
    let (before, after) = text.split_at(at);
    let newline = |byte: &u8| *byte == b'\n';
    let shown_before = before.iter().rev().take(BEFORE).take_while(|byte| !newline(byte)).count();
    let from_line = &text[at - shown_before..];
    let line: String = from_line.iter().take(WIDE).take_while(|byte| !newline(byte)).map(|&byte| shown(byte)).collect();
    let blanks = " ".repeat(shown_before);
    format!("text refused 21 {at}\n{line}\n{blanks}^\nexpected:{}\n", expected(before, after.first()))
}

/// A byte that has no sign of its own shows as a question mark.
fn shown(byte: u8) -> char {
    if (32..127).contains(&byte) {
        char::from(byte)
    } else {
        '?'
    }
}

/// What can follow this beginning of a text, where another byte or none stands.
fn expected(beginning: &[u8], instead: Option<&u8>) -> String {
    if ways::read(beginning).is_ok() {
        let newline = instead == Some(&b'\n');
        return format!(" the end of the text{}", if newline { " (a text has no newline)" } else { "" });
    }
    let goes_on = |&byte: &u8| {
        let text = [beginning, &[byte]].concat();
        ways::read(&text).map_or_else(|offset| offset == text.len(), |_| true)
    };
    let names = (32..127).filter(goes_on).map(|byte| match byte {
        b' ' => " space".to_string(),
        _ => format!(" {}", char::from(byte)),
    });
    names.collect()
}

#[cfg(test)]
mod tests {
    use super::*;

    const P: &str = "Jr.Par(Jr.Seq(Jr.Await(0), Jr.Atom(7), Jr.Generate(1)), Jr.Await(1))";

    fn fails(text: &str, told: &str) {
        assert_eq!(read(text.as_bytes()), Err(told.to_string()), "{text:?}");
    }

    #[test]
    fn p_is_read_checked_and_printed() {
        let table = read(P.as_bytes()).expect("P is a program");
        assert_eq!(table.len(), 60);
        assert_eq!(check(&table), "0 0 1 1 7 0\n");
        let printed = "Jr.Par(Jr.Seq(Jr.Await(0), Jr.Seq(Jr.Atom(7), Jr.Generate(1))), Jr.Await(1))";
        assert_eq!(print(&table), printed.as_bytes());
        assert_eq!(check(&table[1..]), "3 0 0 0 0 0\n");
        assert_eq!(print(&table[1..]), b"table refused 3 0\n");
        assert_eq!(check(&[]), "1 0 0 0 0 0\n");
    }

    // The piece of example 15 of L8; the store goes on without it.
    #[test]
    fn a_piece_is_taken() {
        let table = read(b"Jr.Seq(Jr.Freezable(1, Jr.Seq(Jr.Stop(), Jr.Atom(9))), Jr.Atom(5))").expect("a program");
        let store = [0, 16, 0, 1, 0, 2, 0, 0, 0, 0, 3, 0, 0, 0, 0, 0, 0, 0, 7];
        let moved = take(&table, &store, b"1\n").expect("a piece of event 1");
        assert_eq!(print(&moved.table), b"Jr.Seq(Jr.Stop(), Jr.Atom(9))");
        assert_eq!(moved.state, [0, 0, 0, 0, 3, 0, 0, 0, 0, 0, 0, 0]);
        assert_eq!(moved.store, [0, 0, 0, 1, 0, 2, 0, 0, 0, 0, 3, 0, 0, 0, 0, 0, 0, 0, 7]);
        assert_eq!(take(&table, &store, b"1"), Ok(moved));
        for (table, store, input, told) in [
            (&table[..], &store[..], "0\n", "event refused 14 0\n"),
            (&table, &store, "1023", "event refused 14 0\n"),
            (&table, &store[..17], "1", "store refused 25 0\n"),
            (&table, &[], "1", "store refused 25 0\n"),
            (&table[1..], &store, "1", "table refused 3 0\n"),
            (&[], &[], "1", "table refused 1 0\n"),
        ] {
            assert_eq!(take(table, store, input.as_bytes()), Err(told.to_string()), "{input:?}");
        }
        for input in ["", "\n", "1\n\n", "1\n1\n", "01", "1024", " 1", "1 ", "x", "1\r\n"] {
            assert_eq!(take(&table, &store, input.as_bytes()), Err("bad-line\n".to_string()), "{input:?}");
        }
    }

    #[test]
    fn what_could_stand_there() {
        fails(
            "Jr.Seq(Jr.Await(0) Jr.Stop())",
            "text refused 21 18\nJr.Seq(Jr.Await(0) Jr.Stop())\n                  ^\nexpected: ,\n",
        );
        fails("Jr.Await(", "text refused 21 9\nJr.Await(\n         ^\nexpected: ( 0 1 2 3 4 5 6 7 8 9\n");
        fails(
            "Jr.Seq(Jr.Stop(),Jr.Stop())",
            "text refused 21 17\nJr.Seq(Jr.Stop(),Jr.Stop())\n                 ^\nexpected: space\n",
        );
        fails(
            "Jr.Stop()\n",
            "text refused 21 9\nJr.Stop()\n         ^\nexpected: the end of the text (a text has no newline)\n",
        );
        fails("Jr.Stop() ", "text refused 21 9\nJr.Stop() \n         ^\nexpected: the end of the text\n");
        fails("\tJr.Stop()", "text refused 21 0\n?Jr.Stop()\n^\nexpected: J\n");
    }

    #[test]
    fn the_line_is_shown_in_part() {
        let parts = vec!["Jr.Stop()"; 20].join(", ");
        let text = format!("Jr.Seq({parts}; {parts})");
        let at = 7 + parts.len();
        let line = &text[at - 60..at + 40];
        fails(&text, &format!("text refused 21 {at}\n{line}\n{}^\nexpected: ) ,\n", " ".repeat(60)));
        fails("x\nJr", "text refused 21 0\nx\n^\nexpected: J\n");
    }

    #[test]
    fn other_refusals_of_a_text() {
        fails("Jr.Loop(Jr.Nothing())", "table refused 7 0\n");
        fails(&"x".repeat(1_048_577), "text longer than 1048576 bytes\n");
    }
}
