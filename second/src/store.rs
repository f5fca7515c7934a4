//! The store of parked pieces (L8): its bytes read into pieces or refused, written back, and a piece taken out of it.

use crate::instant;
use crate::state;
use crate::table::{self, Node, Refusal, Written};

/// Of a longer store only so much serves: 16 bits count the bytes in use, and two hold the count.
const LONGEST: usize = 2 + 65_535;

/// A parked piece: the Freezable's event, the node of its body, and the body's state.
#[derive(Clone, Debug, PartialEq, Eq)]
pub struct Piece {
    pub event: u16,
    pub body: usize,
    pub state: Vec<u8>,
}

/// What a taken piece has left in the rooms: the bytes of its table and of its state.
#[derive(Clone, Copy, Debug, PartialEq, Eq)]
pub struct Taken {
    pub table: usize,
    pub state: usize,
}

/// The pieces of a store, oldest first, or refusal 25.
pub fn read(root: &Node, store: &[u8]) -> Result<Vec<Piece>, Refusal> {
    pieces(root, store).ok_or(Refusal::new(25, 0))
}

/// None where the bytes in use aren't pieces of this program from the first to the last.
fn pieces(root: &Node, store: &[u8]) -> Option<Vec<Piece>> {
    let count = table::word(store.get(..2)?, 0);
    let mut left = store[2..].get(..count)?;
    let mut found = vec![];
    while !left.is_empty() {
        let head = left.get(..4)?;
        let (event, body) = (table::word(head, 0) as u16, table::word(head, 2));
        let node = body_of(root, event, body)?;
        let state = left[4..].get(..4 * node.size)?.to_vec();
        if !at_rest(node, &state) {
            return None;
        }
        left = &left[4 + state.len()..];
        found.push(Piece { event, body, state });
    }
    Some(found)
}

/// The node of this index, if it is the body of a Freezable of the event and no repetition of count or cap 0 stands above it.
fn body_of(node: &Node, event: u16, index: usize) -> Option<&Node> {
    match &node.written {
        Written::Repeat(0, _) | Written::RepeatExt(_, 0, _) => None,
        Written::Freezable(s, body) if body.at == index => (*s == event).then_some(body),
        _ => {
            let mut children = state::below(node).into_iter();
            let child = children.find(|child| (child.at..child.at + child.size).contains(&index))?;
            body_of(child, event, index)
        }
    }
}

/// No node of the body is blamed, whatever stands round it.
fn at_rest(body: &Node, state: &[u8]) -> bool {
    let room = [&vec![0; 4 * body.at], state].concat();
    state::blamed(body, &room).is_none()
}

/// Refusal 13: what the pieces leave of the store is less than one instant can park.
pub fn has_room(store: &[u8], pieces: &[Piece], most: u64) -> Result<(), Refusal> {
    let free = store.len().min(LONGEST) - 2 - bytes(pieces).len();
    if (free as u64) < most {
        return Err(Refusal::new(13, 0));
    }
    Ok(())
}

/// Writes the pieces into a store that has room for them; what stands behind them stays.
pub fn write(pieces: &[Piece], store: &mut [u8]) {
    let bytes = bytes(pieces);
    store[..2].copy_from_slice(&(bytes.len() as u16).to_be_bytes());
    store[2..2 + bytes.len()].copy_from_slice(&bytes);
}

/// The pieces one behind the other.
fn bytes(pieces: &[Piece]) -> Vec<u8> {
    let each = |piece: &Piece| {
        let [event, body] = [piece.event, piece.body as u16].map(u16::to_be_bytes);
        [&event[..], &body, &piece.state].concat()
    };
    pieces.iter().flat_map(each).collect()
}

/// Takes the newest piece of an event: refusals 1 to 8, 25, 14 and 15.
pub fn take(
    table: &[u8],
    store: &mut [u8],
    event: u16,
    table_room: &mut [u8],
    state_room: &mut [u8],
) -> Result<Taken, Refusal> {
    let (program, _) = instant::load(table)?;
    let mut pieces = read(&program.root, store)?;
    let newest = pieces.iter().rposition(|piece| piece.event == event).ok_or(Refusal::new(14, 0))?;
    let piece = pieces.remove(newest);
    let part = table::part(table, state::node_at(&program.root, piece.body));
    let taken = Taken { table: part.len(), state: piece.state.len() };
    if table_room.len() < taken.table || state_room.len() < taken.state {
        return Err(Refusal::new(15, 0));
    }
    table_room[..taken.table].copy_from_slice(&part);
    state_room[..taken.state].copy_from_slice(&piece.state);
    write(&pieces, store);
    Ok(taken)
}
