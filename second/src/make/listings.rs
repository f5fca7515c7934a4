//! Random listings: a table, now and then a refused one, and an input of good and bad lines.

use super::random::Random;
use super::{grow, harm};
use crate::env::EVENTS;
use crate::instant;
use crate::table;
use std::io::Result;
use std::path::Path;

/// Writes `table.bin` and `stdin` into a folder, the same for the same seed.
pub fn write(seed: u64, folder: &Path) -> Result<()> {
    let mut r = Random::new(seed);
    let table = random_table(&mut r);
    let events = table::read(&table).map_or(3, |program| program.events);
    std::fs::create_dir_all(folder)?;
    std::fs::write(folder.join("stdin"), input(&mut r, events))?;
    std::fs::write(folder.join("table.bin"), table)
}

fn random_table(r: &mut Random) -> Vec<u8> {
    match r.weigh(&[80, 8, 6, 2, 4]) {
        0 => loop {
            let table = if r.chance(60) { grow::lasting(r) } else { grow::program(r) }.bytes();
            if instant::check(&table).is_ok() {
                return table;
            }
        },
        1 => grow::program(r).bytes(),
        2 => {
            let records = grow::program(r);
            harm::damaged(r, records)
        }
        3 => vec![],
        _ => {
            let length = r.between(32_770, 32_790);
            r.bytes(length)
        }
    }
}

/// An input of some lines, most of them good; the last one may lack its newline.
fn input(r: &mut Random, events: usize) -> Vec<u8> {
    let lines = match r.weigh(&[4, 16, 60, 20]) {
        0 => 0,
        1 => 1,
        2 => r.between(2, 20),
        _ => r.between(21, 80),
    };
    let mut text = Vec::new();
    for _ in 0..lines {
        text.extend(match r.weigh(&[70, 10, 12, 8]) {
            0 => good_line(r, events),
            1 => good_line(r, EVENTS),
            2 => bad_line(r, events),
            _ => long_line(r, events),
        });
        text.push(b'\n');
    }
    if r.chance(30) {
        text.pop();
    }
    text
}

/// Numbers below a bound, one space between, perhaps repeated or none.
fn good_line(r: &mut Random, bound: usize) -> Vec<u8> {
    let numbers: Vec<String> = (0..r.weigh(&[25, 35, 20, 12, 8])).map(|_| r.below(bound).to_string()).collect();
    numbers.join(" ").into_bytes()
}

/// A malformed line.
fn bad_line(r: &mut Random, events: usize) -> Vec<u8> {
    let number = r.below(events);
    match r.below(16) {
        0 => format!("{number} "),
        1 => format!(" {number}"),
        2 => format!("{number}  {number}"),
        3 => format!("0{number}"),
        4 => "00".to_string(),
        5 => format!("{} {number}", r.between(EVENTS, 70_000)),
        6 => format!("{number} 1024 1023"),
        7 => format!("{number}\r"),
        8 => format!("{number}\0"),
        9 => format!("{number}\t{number}"),
        10 => format!("{number},{number}"),
        11 => format!("+{number}"),
        12 => format!("-{number}"),
        13 => " ".to_string(),
        14 => "18446744073709551616".to_string(),
        _ => return r.bytes(3),
    }
    .into_bytes()
}

/// A line of good numbers with about 4,096 bytes, some of them above, now and then far above.
fn long_line(r: &mut Random, events: usize) -> Vec<u8> {
    let length = match r.weigh(&[45, 45, 10]) {
        0 => r.between(4_090, 4_096),
        1 => r.between(4_097, 4_102),
        _ => r.between(4_103, 70_000),
    };
    // One-digit numbers and the spaces between make an odd length; an even one takes a two-digit number.
    let mut line = if length % 2 == 0 { b"10".to_vec() } else { b"0".to_vec() };
    while line.len() < length {
        line.extend(format!(" {}", r.below(events.min(10))).bytes());
    }
    line
}
