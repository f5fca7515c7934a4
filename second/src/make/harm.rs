//! Damaged tables: records with wrong numbers, flipped bits, cuts and additions; and spoilt lines.

use super::draft::Records;
use super::random::Random;

/// The bytes of a table that is damaged in one or two ways. Most, not all, are refused.
pub fn damaged(r: &mut Random, mut records: Records) -> Vec<u8> {
    let ways = if r.chance(75) { 1 } else { 2 };
    for _ in 0..ways {
        if r.chance(55) {
            records = in_a_record(r, records);
        } else {
            let mut bytes = records.bytes();
            in_the_bytes(r, &mut bytes);
            return bytes;
        }
    }
    records.bytes()
}

/// Writes a wrong number into one record, or exchanges two.
fn in_a_record(r: &mut Random, mut records: Records) -> Records {
    let (n, m) = (records.nodes.len(), records.configs.len());
    if m > 0 && r.chance(40) {
        let other = r.below(m);
        let config = &mut records.configs[r.below(m)];
        match r.below(5) {
            0 => config.kind = *r.pick(&[0, 1, 2, 3, 4, 5, 15, 16, 17, 18, 19, 32, 33, 48, 49, 51, 64, 80, 128, 240]),
            1 => config.event = near(r, records.events) as u8,
            2 => config.set_number(near(r, records.events) % 4096),
            3 => config.size = near(r, config.size),
            _ => records.configs.swap(0, other),
        }
    } else {
        let other = r.below(n);
        let limit = *r.pick(&[records.events, records.events, m as u16, m as u16, 16, 4_096]);
        let node = &mut records.nodes[r.below(n)];
        match r.below(6) {
            0 => node.kind = r.below(18) as u8,
            1 => node.zero = r.byte(),
            2 => node.argument = near(r, node.argument),
            3 => node.argument = near(r, limit),
            4 => node.size = near(r, node.size),
            _ => records.nodes.swap(0, other),
        }
    }
    records
}

/// A number at or near another, or at an end of the range.
fn near(r: &mut Random, number: u16) -> u16 {
    match r.below(8) {
        0 | 1 => number.wrapping_add(1),
        2 | 3 => number.wrapping_sub(1),
        4 => number,
        5 => 0,
        6 => 65_535,
        _ => r.below(1_300) as u16,
    }
}

/// Flips, changes, cuts or adds bytes anywhere, often in the trailer.
fn in_the_bytes(r: &mut Random, bytes: &mut Vec<u8>) {
    let length = bytes.len();
    match r.weigh(&[25, 25, 20, 10, 10, 10]) {
        0 => {
            let place = r.below(length);
            bytes[place] ^= 1 << r.below(8);
        }
        1 => {
            let place = r.below(length);
            bytes[place] = r.below(16) as u8;
        }
        2 => {
            let place = length - 10 + 2 * r.below(5);
            let number = near(r, u16::from_be_bytes([bytes[place], bytes[place + 1]]));
            bytes[place..place + 2].copy_from_slice(&number.to_be_bytes());
        }
        3 => bytes.truncate(r.below(length)),
        4 => {
            let cut = r.between(1, length.min(12));
            bytes.drain(..cut);
        }
        _ => {
            let added = r.between(1, 8);
            let more = r.bytes(added);
            let place = if r.chance(50) { 0 } else { length };
            bytes.splice(place..place, more);
        }
    }
}

/// Spoils a line at one of its words, in one of eight ways; a few leave it good.
pub fn spoil_word(words: &mut Vec<String>, place: usize, way: usize) {
    match way {
        0 => words[place].push(' '),
        1 => words[place].insert(0, ' '),
        2 => words[place] = words[place].to_uppercase(),
        3 => words[place].push('0'),
        4 => words[place].push('\r'),
        5 => words[place].clear(),
        6 => drop(words.remove(place)),
        _ => words.insert(place, "-".to_string()),
    }
}
