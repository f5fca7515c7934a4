//! Random stores of parked pieces (L8): good ones, most with pieces that no run has parked, and damaged ones.

use super::random::Random;
use super::rest;
use crate::state::below;
use crate::store::{self, Piece};
use crate::table::{Node, Written};

/// A body that a piece may be of: its Freezable's event, and itself.
type Body<'a> = (u16, &'a Node);

/// The bodies of a program's Freezables; those below a repetition of count or cap 0, where nothing is parked, or the others.
fn bodies<'a>(node: &'a Node, never: bool, above: bool, found: &mut Vec<Body<'a>>) {
    let above = above || matches!(node.written, Written::Repeat(0, _) | Written::RepeatExt(_, 0, _));
    if let Written::Freezable(s, body) = &node.written {
        if above == never {
            found.push((*s, body));
        }
    }
    below(node).into_iter().for_each(|child| bodies(child, never, above, found));
}

/// Some pieces of a program, none if nothing of it can be parked.
pub fn pieces(r: &mut Random, root: &Node) -> Vec<Piece> {
    let mut found = vec![];
    bodies(root, false, false, &mut found);
    if found.is_empty() {
        return vec![];
    }
    let many = r.weigh(&[10, 22, 22, 20, 14, 12]);
    (0..many).map(|_| *r.pick(&found)).collect::<Vec<_>>().into_iter().map(|body| piece(r, body)).collect()
}

fn piece(r: &mut Random, (event, body): Body) -> Piece {
    let state = if r.chance(10) { vec![0; 4 * body.size] } else { rest::state(r, body) };
    Piece { event, body: body.at, state }
}

/// A store of these pieces with so many bytes behind them, with anything in these.
pub fn with_free(r: &mut Random, pieces: &[Piece], free: usize) -> Vec<u8> {
    let used: usize = pieces.iter().map(|piece| 4 + piece.state.len()).sum();
    let mut store = r.bytes(2 + used + free);
    store::write(pieces, &mut store);
    store
}

/// Free bytes for an instant that can park so many: exact, more, a few times as many, seldom too few.
pub fn free(r: &mut Random, most: usize) -> usize {
    match r.weigh(&[30, 30, 30, 7, 3]) {
        0 => most,
        1 => most + r.between(1, 9),
        2 => most * r.between(2, 3),
        3 => most.saturating_sub(r.between(1, 4)),
        _ => r.below(most + 1),
    }
}

/// A store that is full but for what an instant can park, a piece more or less, of about the greatest length that serves; none where nothing
/// can be parked.
pub fn nearly_full(r: &mut Random, root: &Node, most: usize) -> Option<Vec<u8>> {
    let mut found = vec![];
    bodies(root, false, false, &mut found);
    if found.is_empty() {
        return None;
    }
    let body = *r.pick(&found);
    let one = piece(r, body);
    let fitting = (65_535 - most) / (4 + one.state.len());
    let many = fitting + r.below(3) - 1;
    let pieces = vec![one; many];
    let used = 4 * many * (1 + body.1.size);
    let length = *r.pick(&[65_535, 65_536, 65_537, 65_538, 66_000, 2 + used + most, 1 + used + most]);
    (used <= 65_535).then(|| with_free(r, &pieces, length.max(2 + used) - 2 - used))
}

/// A store that is damaged in one way, most often in a piece. Most, not all, are refused.
pub fn damaged(r: &mut Random, root: &Node, most: usize) -> Vec<u8> {
    let mut pieces = pieces(r, root);
    let nodes = root.size;
    let way = r.below(11);
    let which = r.below(pieces.len().max(1));
    let count = pieces.len();
    match (way, pieces.get_mut(which)) {
        (0, Some(piece)) => piece.event = near(r, piece.event as usize, 4),
        (1, Some(piece)) => piece.body = usize::from(near(r, piece.body, nodes + 1)),
        (2, Some(piece)) => {
            let place = r.below(piece.state.len());
            piece.state[place] = *r.pick(&[0, 1, 1, 2, 3, 4, 8]);
        }
        (3, Some(piece)) => rest::damage(r, &mut piece.state, 1),
        // Another piece's state.
        (4, Some(_)) => {
            let other = pieces[r.below(count)].state.clone();
            pieces[which].state = other;
        }
        // A piece from where nothing is parked.
        (5, _) => {
            let mut found = vec![];
            bodies(root, true, false, &mut found);
            if !found.is_empty() {
                let body = *r.pick(&found);
                let place = r.below(count + 1);
                let odd = piece(r, body);
                pieces.insert(place, odd);
            }
        }
        _ => {}
    }
    let mut store = with_free(r, &pieces, most);
    let used = store.len() - 2 - most;
    match way {
        // More or fewer bytes in use than there are pieces.
        6 | 7 => {
            let count = near(r, used, store.len());
            store[..2].copy_from_slice(&count.to_be_bytes());
        }
        // Cut within the pieces, or within the count.
        8 => store.truncate(r.below(2 + used + 1)),
        // Bytes pushed in.
        9 => {
            let place = 2 + r.below(used + 1);
            let more = r.between(1, 8);
            let bytes = r.bytes(more);
            store.splice(place..place, bytes);
        }
        10 if used > 0 => {
            let place = 2 + r.below(used);
            store[place] ^= 1 << r.below(8);
        }
        _ => {}
    }
    store
}

/// A number at, near or far from another.
fn near(r: &mut Random, number: usize, bound: usize) -> u16 {
    let number = number as u16;
    match r.below(8) {
        0 | 1 => number.wrapping_add(1),
        2 | 3 => number.wrapping_sub(1),
        4 => number.wrapping_add(*r.pick(&[4, 8, 256])),
        5 => number.wrapping_sub(4),
        6 => 65_535,
        _ => r.below(bound) as u16,
    }
}
