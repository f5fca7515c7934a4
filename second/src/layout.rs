//! Lays the pieces of a text out as a table: a piece's records come first, those of its parts follow in order,
//! nodes among nodes and configurations among configurations.

use crate::grammar::Piece;
use std::ops::Add;

/// A number of records, or the place behind so many.
#[derive(Clone, Copy, Debug, Default, PartialEq, Eq)]
struct Records {
    nodes: usize,
    configs: usize,
}

impl Add for Records {
    type Output = Records;

    fn add(self, more: Records) -> Records {
        Records { nodes: self.nodes + more.nodes, configs: self.configs + more.configs }
    }
}

pub struct Layout {
    pieces: Vec<Piece>,
    /// Where the parts of each piece stand among the pieces.
    parts: Vec<Vec<usize>>,
    /// The records of each piece with all its parts.
    records: Vec<Records>,
}

impl Layout {
    /// Of the pieces of a whole text, each after its parts.
    pub fn new(pieces: Vec<Piece>) -> Layout {
        let mut layout = Layout { parts: vec![], records: vec![], pieces };
        let mut loose: Vec<usize> = vec![];
        for (at, &piece) in layout.pieces.iter().enumerate() {
            let parts = loose.split_off(loose.len() - piece.parts());
            let records = parts.iter().map(|&part| layout.records[part]).fold(own(piece), Records::add);
            layout.parts.push(parts);
            layout.records.push(records);
            loose.push(at);
        }
        layout
    }

    /// How many bytes the table needs.
    pub fn length(&self) -> usize {
        let whole = self.whole();
        6 * whole.nodes + 4 * whole.configs + 10
    }

    /// The table's bytes, for a table whose numbers are within 16 bits.
    pub fn bytes(&self) -> Vec<u8> {
        let Records { nodes: n, configs: m } = self.whole();
        let places = self.places();
        let mut bytes = vec![0; self.length()];
        for (at, &piece) in self.pieces.iter().enumerate() {
            let [high, low] = self.argument(at, &places).to_be_bytes();
            if let Some(kind) = node_kind(piece) {
                let [size_high, size_low] = (self.records[at].nodes as u16).to_be_bytes();
                let from = 6 * places[at].nodes;
                bytes[from..from + 6].copy_from_slice(&[kind, 0, high, low, size_high, size_low]);
            }
            if let Some(kind) = config_kind(piece) {
                let [size_high, size_low] = (self.records[at].configs as u16).to_be_bytes();
                let from = 6 * n + 4 * places[at].configs;
                // The upper part of an event's number is added to its kind in sixteens (L10).
                bytes[from..from + 4].copy_from_slice(&[kind + 16 * high, low, size_high, size_low]);
            }
        }
        let trailer = [n, m, self.events(), 6 * n + 4 * m, 4 * m].map(|number| (number as u16).to_be_bytes());
        bytes[6 * n + 4 * m..].copy_from_slice(&trailer.concat());
        bytes
    }

    /// A piece's number, for a RepeatExt its cap times 16 plus it (L14), the place of a test's configuration, otherwise 0.
    fn argument(&self, at: usize, places: &[Records]) -> u16 {
        let Some(&first) = self.parts[at].first() else { return 0 };
        match self.pieces[first] {
            Piece::Number(number) if self.pieces[at] == Piece::RepeatExt => 16 * self.cap(at) + number,
            Piece::Number(number) => number,
            _ if self.pieces[at].is_test() => places[first].configs as u16,
            _ => 0,
        }
    }

    /// The second number of a RepeatExt.
    fn cap(&self, at: usize) -> u16 {
        match self.pieces[self.parts[at][1]] {
            Piece::Number(cap) => cap,
            other => unreachable!("{other:?} is no cap"),
        }
    }

    fn whole(&self) -> Records {
        *self.records.last().expect("a text has a piece")
    }

    /// V: one above the highest event named, at least 1.
    fn events(&self) -> usize {
        let named = (0..self.pieces.len()).filter(|&at| self.pieces[at].names_event());
        let above = named.map(|at| match self.pieces[self.parts[at][0]] {
            Piece::Number(event) => usize::from(event) + 1,
            other => unreachable!("{other:?} is no event"),
        });
        above.max().unwrap_or(1)
    }

    /// Where the records of each piece begin: a whole comes after its parts, so its place is known before theirs.
    fn places(&self) -> Vec<Records> {
        let mut places = vec![Records::default(); self.pieces.len()];
        for at in (0..self.pieces.len()).rev() {
            let mut next = places[at] + own(self.pieces[at]);
            for &part in &self.parts[at] {
                places[part] = next;
                next = next + self.records[part];
            }
        }
        places
    }
}

/// A piece's own record, parts aside; a number has none.
fn own(piece: Piece) -> Records {
    Records { nodes: node_kind(piece).iter().count(), configs: config_kind(piece).iter().count() }
}

fn config_kind(piece: Piece) -> Option<u8> {
    match piece {
        Piece::Event => Some(0),
        Piece::Not => Some(1),
        Piece::And => Some(2),
        Piece::Or => Some(3),
        _ => None,
    }
}

fn node_kind(piece: Piece) -> Option<u8> {
    match piece {
        Piece::Nothing => Some(0),
        Piece::Stop => Some(1),
        Piece::Atom => Some(2),
        Piece::Seq => Some(3),
        Piece::Par => Some(4),
        Piece::Loop => Some(5),
        Piece::Repeat => Some(6),
        Piece::Generate => Some(7),
        Piece::Await => Some(8),
        Piece::When => Some(9),
        Piece::Until => Some(10),
        Piece::Control => Some(11),
        Piece::Local => Some(12),
        Piece::Freezable => Some(13),
        Piece::If => Some(14),
        Piece::RepeatExt => Some(15),
        Piece::Number(_) | Piece::Event | Piece::Not | Piece::And | Piece::Or => None,
    }
}
