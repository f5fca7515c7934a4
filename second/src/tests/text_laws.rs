//! Laws that the two calls of the written form must keep, over random and edge lines.

use crate::lines;
use crate::make::{text_edges, texts};
use crate::table;
use crate::text;
use crate::words::read_hex;

/// Each random and edge call: its first word, what it is given, its room, its answer's numbers and the room after it.
fn each_case(mut look: impl FnMut(&str, &[u8], &[u8], [usize; 3], &[u8])) {
    for line in texts::lines(3_000, 2).chain(text_edges::lines()) {
        let answer = lines::answer(line.as_bytes());
        if answer != "bad-line" && !line.starts_with("check") {
            let (line, answer): (Vec<&str>, Vec<&str>) = (line.split(' ').collect(), answer.split(' ').collect());
            let numbers = [0, 1, 2].map(|place| answer[place].parse().expect("a number"));
            look(line[0], &bytes(line[1]), &bytes(line[2]), numbers, &bytes(answer[3]));
        }
    }
}

fn bytes(word: &str) -> Vec<u8> {
    read_hex(word.as_bytes()).expect("printed hexadecimal")
}

/// A table's tree with its configurations, printed in full.
fn tree(table: &[u8]) -> String {
    format!("{:?}", table::read(table).expect("accepted").root)
}

// A refusal has length 0 and leaves the room; success has index 0 and leaves the rest of the room.
#[test]
fn rooms_keep_the_rest() {
    each_case(|_, _, room, [number, index, length], after| {
        assert_eq!(room.len(), after.len());
        assert_eq!(room[length..], after[length..]);
        assert_eq!(number == 0, length > 0);
        assert!(index == 0 || number != 0);
    });
}

// A failing text has the beginning before its offset in common with some text, and no longer one.
#[test]
fn offsets_are_the_longest_beginnings() {
    each_case(|word, text, _, [number, index, _], _| {
        if word == "read" && number == 21 {
            assert!(index <= text.len());
            let mut none = [];
            let whole = text::read(&text[..index], &mut none).expect_err("there is no room");
            assert!(whole.number == 22 || (whole.number, whole.index) == (21, index));
            if index < text.len() {
                let fails = text::read(&text[..index + 1], &mut none).expect_err("there is no room");
                assert_eq!((fails.number, fails.index), (21, index));
            }
        }
    });
}

// Every beginning of a text with a reading ends early.
#[test]
fn beginnings_end_early() {
    each_case(|word, text, _, [number, ..], _| {
        if word == "read" && number != 21 && text.len() < 150 {
            for length in 0..text.len() {
                let early = text::read(&text[..length], &mut []).expect_err("it ends early");
                assert_eq!((early.number, early.index), (21, length));
            }
        }
    });
}

// A table that was read prints as a text that reads as the same table; the same spelling prints again.
#[test]
fn what_was_read_prints() {
    each_case(|word, _, _, [number, _, length], after| {
        if word == "read" && number == 0 {
            let mut spelling = vec![0; 33_000];
            let Ok(letters) = text::print(&after[..length], &mut spelling) else {
                // Two parts each take more bytes than several.
                return assert!(length > 10_000);
            };
            let mut again = vec![0; length];
            assert_eq!(text::read(&spelling[..letters], &mut again), Ok(length));
            assert_eq!(again, after[..length]);
        }
    });
}

// A table that prints has the same tree and configurations when its text is read, unless that brings 2 or 22.
#[test]
fn what_was_printed_reads() {
    let mut copies = 0;
    each_case(|word, table, _, [number, _, length], after| {
        if word == "print" && number == 0 {
            let mut room = vec![0; 33_000];
            match text::read(&after[..length], &mut room) {
                Ok(length) => assert_eq!(tree(&room[..length]), tree(table)),
                Err(refusal) => {
                    assert!(refusal.number == 2 || refusal.number == 22);
                    copies += 1;
                }
            }
        }
    });
    assert!(copies > 0);
}

// Every refusal, success and bad lines are met many times by the random lines alone.
#[test]
fn random_lines_meet_every_refusal() {
    let mut met = [0; 25];
    let mut bad = 0;
    for line in texts::lines(6_000, 3) {
        match lines::answer(line.as_bytes()).split(' ').next().expect("a word").parse::<usize>() {
            Ok(number) => met[number] += 1,
            Err(_) => bad += 1,
        }
    }
    let wanted = [0, 1, 2, 3, 4, 5, 6, 7, 8, 21, 22, 24];
    assert!(bad > 10 && wanted.iter().all(|&number| met[number] > 4), "{bad} {met:?}");
}

// Edge lines are calls, but for the short ones and those one byte too long that are meant to be bad.
#[test]
fn edge_lines_are_calls() {
    let meant = |line: &str| line.len() < 30 || line.contains(&"00".repeat(33_001));
    for line in text_edges::lines() {
        assert!(meant(&line) || lines::answer(line.as_bytes()) != "bad-line", "{} bytes: {line:.80}", line.len());
    }
}

// The same seed gives the same lines.
#[test]
fn lines_are_repeatable() {
    assert!(texts::lines(50, 9).eq(texts::lines(50, 9)));
    assert!(!texts::lines(50, 9).eq(texts::lines(50, 10)));
}
