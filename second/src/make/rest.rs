//! Random states: at rest, most of them never reached from fresh, and damaged ones.

use super::random::Random;
use crate::state::below;
use crate::table::{Node, Written};

/// A random state at rest of a tree, or of a part of one.
pub fn state(r: &mut Random, root: &Node) -> Vec<u8> {
    let mut room = vec![0; 4 * (root.at + root.size)];
    let gone = r.weigh(&[30, 50, 20]);
    fill(r, root, [3, 10, 25][gone], &mut room);
    room.split_off(4 * root.at)
}

/// Fills the zero bytes of a node and below; `gone` is how many in a hundred read as Nothing.
fn fill(r: &mut Random, node: &Node, gone: usize, room: &mut [u8]) {
    let at = 4 * node.at;
    if r.chance(gone) {
        room[at] = 3;
        return;
    }
    match &node.written {
        Written::Nothing | Written::Stop | Written::Atom(_) | Written::Generate(_) | Written::Await(_) => {}
        Written::Control(_, body) | Written::Local(_, body) | Written::Freezable(_, body) => fill(r, body, gone, room),
        Written::Seq(first, second) => {
            if r.chance(50) {
                fill(r, first, gone, room);
            } else {
                room[at] = 2;
                fill(r, second, gone, room);
            }
        }
        Written::Par(first, second) => match r.weigh(&[60, 20, 20]) {
            0 => {
                fill(r, first, gone, room);
                fill(r, second, gone, room);
            }
            1 => {
                room[at + 1] = 2;
                room[4 * first.at] = 3;
                fill(r, second, gone, room);
            }
            _ => {
                room[at + 1] = 8;
                room[4 * second.at] = 3;
                fill(r, first, gone, room);
            }
        },
        Written::Loop(body) => {
            if r.chance(75) {
                room[at] = 1;
                fill(r, body, gone, room);
            }
        }
        Written::Repeat(times, body) => {
            if *times > 0 && r.chance(75) {
                room[at] = 1;
                let count = if r.chance(30) { times - 1 } else { r.below(usize::from(*times)) as u16 };
                room[at + 2..at + 4].copy_from_slice(&count.to_be_bytes());
                fill(r, body, gone, room);
            }
        }
        Written::RepeatExt(_, cap, body) => {
            if *cap > 0 && r.chance(75) {
                room[at] = 1;
                room[at + 3] = if r.chance(30) { cap - 1 } else { r.below(usize::from(*cap)) as u8 };
                fill(r, body, gone, room);
            }
        }
        Written::When(_, then, other) | Written::If(_, then, other) => match r.below(3) {
            0 => {}
            1 => {
                room[at] = 1;
                fill(r, then, gone, room);
            }
            _ => {
                room[at] = 2;
                fill(r, other, gone, room);
            }
        },
        Written::Until(_, body, handler) => {
            if r.chance(60) {
                fill(r, body, gone, room);
            } else {
                room[at] = 2;
                fill(r, handler, gone, room);
            }
        }
    }
}

/// Gives one of the begun repetitions of a state a count that is just too great, or near it.
pub fn recount(r: &mut Random, root: &Node, state: &mut [u8]) {
    let mut begun = vec![];
    limits_of_begun(root, state, &mut begun);
    if !begun.is_empty() {
        let (at, limit) = *r.pick(&begun);
        let count = limit.saturating_add(*r.pick(&[0, 0, 0, 1, 255, 256])).saturating_sub(*r.pick(&[0, 0, 1]));
        state[at + 2..at + 4].copy_from_slice(&count.to_be_bytes());
    }
}

/// Where the bytes of each begun repetition stand, and the count or cap that its count is below.
fn limits_of_begun(node: &Node, state: &[u8], found: &mut Vec<(usize, u16)>) {
    let limit = match &node.written {
        Written::Repeat(times, _) => Some(*times),
        Written::RepeatExt(_, cap, _) => Some(u16::from(*cap)),
        _ => None,
    };
    found.extend(limit.filter(|_| state[4 * node.at] == 1).map(|limit| (4 * node.at, limit)));
    below(node).into_iter().for_each(|child| limits_of_begun(child, state, found));
}

/// Changes a state's 4N bytes in one to three places, mostly to values that some node may have.
pub fn damage(r: &mut Random, state: &mut [u8], nodes: usize) {
    for _ in 0..r.between(1, 3) {
        let at = 4 * r.below(nodes);
        match r.weigh(&[50, 25, 15, 10]) {
            0 => state[at] = r.below(5) as u8,
            1 => state[at + 1] = *r.pick(&[1, 2, 4, 5, 6, 8, 9, 10, 3, 12, 16, 130]),
            2 => state[at + 3] = r.below(4) as u8,
            _ => {
                let place = at + r.below(4);
                state[place] = r.byte();
            }
        }
    }
}
