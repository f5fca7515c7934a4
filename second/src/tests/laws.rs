//! Laws that every answer must keep, over random and edge calls.

use crate::instant;
use crate::lines;
use crate::make::{calls, edges, parked, values};
use crate::state;
use crate::table;
use crate::term::Flag;
use crate::words::read_hex;

/// Lines to try, and the words of each line and of its answer.
fn each_case(mut look: impl FnMut(&[&str], &[&str])) {
    let random = calls::lines(4_000, 2).chain(values::lines(2_000, 2)).chain(parked::lines(2_000, 2));
    for line in random.chain(edges::lines()) {
        let answer = lines::answer(line.as_bytes());
        if answer != "bad-line" {
            look(&line.split(' ').collect::<Vec<_>>(), &answer.split(' ').collect::<Vec<_>>());
        }
    }
}

fn bytes(word: &str) -> Vec<u8> {
    read_hex(word.as_bytes()).expect("printed hexadecimal")
}

// A refusal has every other field 0, the set empty and lowest 1,024, and writes nothing.
#[test]
fn a_refusal_writes_nothing() {
    each_case(|line, answer| match (line[0], answer[0]) {
        (_, "0") => assert_eq!(answer[1], "0"),
        ("check", _) => assert_eq!(answer[2..], ["0", "0", "0", "0"]),
        ("start", _) => assert_eq!(answer[2], line[2]),
        ("take", _) => assert_eq!(answer[2..], ["0", "0", line[2], line[4], line[5]]),
        _ => {
            assert_eq!(answer[2..10], ["-", "0", "1024", "0", "0", "0", "4096", "1024"]);
            assert_eq!(answer[10..], [line[2], line[5], line[6]]);
        }
    });
}

// Success writes 4N state bytes and the atoms reported; the rest of each room keeps its contents.
#[test]
fn success_writes_its_part() {
    each_case(|line, answer| {
        if line[0] == "check" || line[0] == "take" || answer[0] != "0" {
            return;
        }
        let n = table::read(&bytes(line[1])).expect("accepted").root.size;
        let (before, after) = (bytes(line[2]), bytes(answer[if line[0] == "start" { 2 } else { 10 }]));
        assert_eq!(before.len(), after.len());
        assert_eq!(before[4 * n..], after[4 * n..]);
        if line[0] == "start" {
            assert!(after[..4 * n].iter().all(|&byte| byte == 0));
        } else {
            let (row, later) = (bytes(line[5]), bytes(answer[11]));
            let atoms: usize = answer[5].parse().expect("a number");
            assert_eq!(row.len(), later.len());
            assert_eq!(row[2 * atoms..], later[2 * atoms..]);
        }
    });
}

// An instant takes 1 to G + 2 passes, writes at most A atoms, keeps what was handed in, and ends at rest.
#[test]
fn an_instant_ends_at_rest() {
    each_case(|line, answer| {
        if line[0] != "instant" || answer[0] != "0" {
            return;
        }
        let table = bytes(line[1]);
        let program = table::read(&table).expect("accepted");
        let figures = instant::check(&table).expect("accepted");
        let number = |word: &str| word.parse::<u64>().expect("a number");
        assert!((1..=figures.g + 2).contains(&number(answer[7])));
        assert!(number(answer[5]) <= figures.a);
        let present: Vec<&str> = answer[2].split(',').collect();
        assert!(line[3].split(',').all(|event| event == "-" || present.contains(&event)));
        let after = bytes(answer[10]);
        assert_eq!(state::blamed(&program.root, &after), None);
        if answer[6] == "1" {
            assert!(after[0] == 3 && after[1..4 * program.root.size].iter().all(|&byte| byte == 0));
        }
    });
}

// A state at rest is written back as it was read.
#[test]
fn reading_and_writing_agree() {
    each_case(|line, answer| {
        if line[0] != "instant" || answer[0] != "0" {
            return;
        }
        let program = table::read(&bytes(line[1])).expect("accepted");
        let before = bytes(line[2]);
        let mut after = before.clone();
        after[..4 * program.root.size].fill(0xee);
        state::write(&program.root, Flag::Stop, &state::read(&program.root, &before), &mut after);
        assert_eq!(before, after);
    });
}

// A fresh state reads as the translation of the program.
#[test]
fn zero_reads_as_fresh() {
    each_case(|line, answer| {
        if answer[0] == "0" {
            let root = table::read(&bytes(line[1])).expect("accepted").root;
            assert_eq!(state::read(&root, &vec![0; 4 * root.size]), state::fresh(&root));
        }
    });
}

// Every refusal number, success and bad lines are met many times by the random lines alone.
#[test]
fn random_lines_meet_every_refusal() {
    let mut met = [0; 26];
    let mut bad = 0;
    for line in calls::lines(4_000, 3).chain(parked::lines(1_000, 3)) {
        match lines::answer(line.as_bytes()).split(' ').next().expect("a word").parse::<usize>() {
            Ok(number) => met[number] += 1,
            Err(_) => bad += 1,
        }
    }
    let known = (0..=15).chain([25]);
    assert!(bad > 10 && known.map(|number| met[number]).all(|times| times > 4), "{bad} {met:?}");
}

// The same seed gives the same lines.
#[test]
fn lines_are_repeatable() {
    assert!(calls::lines(50, 9).eq(calls::lines(50, 9)));
    assert!(!calls::lines(50, 9).eq(calls::lines(50, 10)));
}
