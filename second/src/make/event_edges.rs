//! Call lines of L10, a thousand events: every kind byte of a configuration, event numbers round V, and every word of an event set.

use super::draft::short::*;
use super::draft::{Draft, Records};
use super::edges::Edges;
use super::limits::nots;

/// Adds them to the others.
pub fn add(edges: &mut Edges) {
    kind_bytes(edges);
    parted_kinds(edges);
    round_v(edges);
    words(edges);
    high_events(edges);
}

/// An Await over these configuration records.
fn over(events: u16, configs: &[(u8, u8, u16)]) -> Vec<u8> {
    Records::raw(events, &[(8, 0, 1)], configs).bytes()
}

// Each of the 256 kind bytes in a record of size 1, event byte 0.
fn kind_bytes(edges: &mut Edges) {
    for kind in 0..=255 {
        edges.check(&over(1_024, &[(kind, 0, 1)]));
    }
}

// Kinds 1 to 3 with an upper part, with an event byte, and over a record whose kind byte is none; a bad record's height is 1.
fn parted_kinds(edges: &mut Edges) {
    for high in [0, 16, 32, 48, 64, 240] {
        edges.check(&over(600, &[(1 + high, 0, 2), (0, 0, 1)]));
        edges.check(&over(600, &[(2 + high, 0, 3), (0, 0, 1), (16, 1, 1)]));
        edges.check(&over(600, &[(3 + high, 0, 3), (16, 0, 1), (32, 1, 1)]));
        edges.check(&over(1_024, &[(1, 0, 2), (high, 7, 1)]));
        edges.check(&over(1_024, &[(high, 7, 2), (0, 0, 1)]));
        edges.check(&over(1_024, &[(2, 0, 3), (high, 255, 1), (1 + high, 0, 1)]));
        let mut records = Records::new(1_024, &wait(nots(16, event(1_023))));
        records.configs[0].kind = 1 + high;
        edges.check(&records.bytes());
        records.configs[15].kind = 1 + high;
        edges.check(&records.bytes());
    }
    for times in [14, 15, 16] {
        edges.check(&Records::new(1_024, &wait(nots(times, event(1_023)))).bytes());
    }
}

// The whole number is compared with V: each upper part at both ends of its event bytes, V at and beside the number.
fn round_v(edges: &mut Edges) {
    for high in [0, 1, 2, 3, 4, 15] {
        for low in [0, 1, 254, 255] {
            let number = 256 * u16::from(high) + u16::from(low);
            for v in [number, number + 1, number + 2] {
                edges.check(&over(v, &[(16 * high, low, 1)]));
            }
        }
    }
    for v in [1, 2, 255, 256, 1_024] {
        edges.check(&over(v, &[(16, 1, 1)]));
        edges.check(&over(v, &[(48, 255, 1)]));
        edges.check(&over(v, &[(0, 0, 1), (32, 0, 1)]));
    }
}

// The first and the last event of each word of the set: handed in, generated, waited for, beside one of another word.
fn words(edges: &mut Edges) {
    let table = Records::new(1_024, &stop()).bytes();
    for word in 0..16 {
        let (first, last) = (64 * word, 64 * word + 63);
        let other = (last + 512) % 1_024;
        edges.instant(&table, &[0; 4], &[first], 0);
        edges.instant(&table, &[0; 4], &[last, other], 0);
        edges.play(1_024, &par(wait(event(last)), generate(first)), &[&[], &[last]]);
        edges.play(1_024, &wait(or(event(first), event(other))), &[&[last], &[first]]);
    }
    let all: Vec<u16> = (0..1_024).collect();
    edges.instant(&table, &[0; 4], &all, 0);
    edges.instant(&table, &[0; 4], &all[1..], 0);
    edges.instant(&table, &[0; 4], &all[1_023..], 0);
}

// Forms over events that differ only in their upper parts.
fn high_events(edges: &mut Edges) {
    let programs: [fn(u16, u16) -> Draft; 7] = [
        |s, t| par(wait(event(s)), generate(t)),
        |s, t| par(when(event(s), atom(1), atom(2)), generate(t)),
        |s, t| until(and(event(s), not(event(t))), stop(), atom(5)),
        |s, t| control(s, seq(generate(t), wait(event(t)))),
        |s, t| local(s, par(wait(event(s)), par(generate(s), wait(event(t))))),
        |s, t| local(t, seq(wait(event(s)), generate(t))),
        |s, t| par(local(s, wait(event(s))), control(t, wait(or(event(s), event(t))))),
    ];
    for program in programs {
        for (s, t) in [(3, 259), (259, 3), (515, 771), (1_023, 767), (767, 1_023)] {
            edges.play(1_024, &program(s, t), &[&[], &[s], &[t]]);
        }
    }
}
