//! Random lines of the two calls of the written form: texts to read, tables to print, odd rooms, bad lines.

use super::random::Random;
use super::{grow, harm, limits, spoil, wide, write};
use crate::layout::Layout;
use crate::lines::{print, Call};
use crate::{instant, ways};

/// As many lines as asked for, the same for the same seed.
pub fn lines(cases: usize, seed: u64) -> impl Iterator<Item = String> {
    let mut maker = Maker(Random::new(seed));
    (0..cases).map(move |_| maker.line())
}

struct Maker(Random);

impl Maker {
    fn line(&mut self) -> String {
        let r = &mut self.0;
        let call = match r.weigh(&[30, 30, 6, 6, 20, 4, 2, 2]) {
            0 => read(r, |r| written(r).into_bytes()),
            1 => read(r, |r| {
                let text = written(r);
                spoil::damaged(r, &text)
            }),
            2 => read(r, |r| wide::near(r).into_bytes()),
            3 => read(r, |r| printed(r).into_bytes()),
            4 => print_table(r, |r| grow::program(r).bytes()),
            5 => print_table(r, |r| {
                if r.chance(10) {
                    let length = r.below(20);
                    return r.bytes(length);
                }
                let records = grow::program(r);
                harm::damaged(r, records)
            }),
            6 => print_table(r, |r| limits::near(r).bytes()),
            _ => return bad_line(r),
        };
        print(&call)
    }
}

/// A text of some size, its events mostly few.
fn written(r: &mut Random) -> String {
    let events = *r.pick(&[1, 2, 3, 5, 10, 11, 100, 101, 255, 256, 257, 1_000, 1_023, 1_024]);
    let nodes = match r.weigh(&[20, 45, 30, 5]) {
        0 => r.between(1, 3),
        1 => r.between(4, 10),
        2 => r.between(11, 30),
        _ => r.between(31, 90),
    };
    if r.chance(8) {
        return format!("Jr.Await({})", write::config(r, events, 6));
    }
    write::text(r, nodes, events)
}

/// A text as it is printed from an accepted table.
fn printed(r: &mut Random) -> String {
    loop {
        if let Ok((program, _)) = instant::load(&grow::program(r).bytes()) {
            return program.root.to_string();
        }
    }
}

fn read(r: &mut Random, text: impl Fn(&mut Random) -> Vec<u8>) -> Call {
    let text = text(r);
    // A text without a reading needs no room; now and then it has some.
    let needed = ways::read(&text).map_or(r.below(40), |pieces| Layout::new(pieces).length());
    Call::Read { room: room(r, needed), text }
}

fn print_table(r: &mut Random, table: impl Fn(&mut Random) -> Vec<u8>) -> Call {
    let table = table(r);
    let needed = instant::load(&table).map_or(r.below(40), |(program, _)| program.root.to_string().len());
    Call::Print { room: room(r, needed), table }
}

/// A room for so many bytes: exact, long or short, with anything in it.
fn room(r: &mut Random, needed: usize) -> Vec<u8> {
    let length = match r.weigh(&[40, 30, 16, 8, 6]) {
        0 => needed,
        1 => needed + r.between(1, 9),
        2 => needed.saturating_sub(1),
        3 => r.below(needed + 1),
        _ => 0,
    };
    r.bytes(length.min(wide::LONGEST_TEXT))
}

/// A line that was good before one change; a few changes leave it good.
fn bad_line(r: &mut Random) -> String {
    let call =
        if r.chance(50) { read(r, |r| written(r).into_bytes()) } else { print_table(r, |r| grow::program(r).bytes()) };
    let line = print(&call);
    let mut words: Vec<String> = line.split(' ').map(str::to_string).collect();
    let place = r.below(words.len());
    match r.below(9) {
        8 => words[0] = r.pick(&["read", "print", "Read", "prints", "check"]).to_string(),
        way => harm::spoil_word(&mut words, place, way),
    }
    words.join(" ")
}
