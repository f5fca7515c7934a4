//! Reads a text of the written form by following every way in which it may go on, byte by byte. A text
//! fails at the byte that ends the last way. What follows and what is made are lists in two rows, of which
//! ways share the older part; so a text nests to any depth without nesting calls.

use crate::grammar::{Name, Piece, Symbol};

/// The pieces of a text, each after its parts; or the offset where the text fails.
pub fn read(text: &[u8]) -> Result<Vec<Piece>, usize> {
    let mut reader = Reader { later: vec![], made: vec![], ways: vec![] };
    reader.open(&[Symbol::Any(Name::Program)], None, None);
    for (offset, &byte) in text.iter().enumerate() {
        reader.take(byte);
        if reader.ways.is_empty() {
            return Err(offset);
        }
    }
    let whole = reader.ways.iter().find(|way| matches!(way.next, Next::End));
    whole.map(|way| reader.pieces(way.made)).ok_or(text.len())
}

/// The last entry of a list, none if it is empty.
type Last = Option<usize>;

#[derive(Clone, Copy)]
struct Way {
    next: Next,
    /// What follows in the same choice, and after it in those around it.
    rest: &'static [Symbol],
    later: Last,
    made: Last,
}

/// What a way waits for.
#[derive(Clone, Copy)]
enum Next {
    Bytes(&'static [u8]),
    /// The first digit of a number up to a limit.
    Digit(u16),
    /// A further digit after this number, up to a limit.
    Digits(u16, u16),
    End,
}

struct Reader {
    later: Vec<(&'static [Symbol], Last)>,
    made: Vec<(Piece, Last)>,
    ways: Vec<Way>,
}

impl Reader {
    /// Adds the ways that begin with these symbols, up to where each waits for a byte.
    fn open(&mut self, mut rest: &'static [Symbol], mut later: Last, mut made: Last) {
        loop {
            let next = match (rest.split_first(), later) {
                (None, None) => Next::End,
                (None, Some(last)) => {
                    (rest, later) = self.later[last];
                    continue;
                }
                (Some((&symbol, after)), _) => {
                    rest = after;
                    match symbol {
                        Symbol::Bytes(text) => Next::Bytes(text.as_bytes()),
                        Symbol::Decimal(limit) => Next::Digit(limit),
                        Symbol::Makes(piece) => {
                            made = self.make(piece, made);
                            continue;
                        }
                        Symbol::Any(name) => {
                            self.later.push((rest, later));
                            let here = Some(self.later.len() - 1);
                            name.choices().iter().for_each(|choice| self.open(choice, here, made));
                            return;
                        }
                    }
                }
            };
            self.ways.push(Way { next, rest, later, made });
            return;
        }
    }

    /// Takes a byte: the ways that go on with it take the place of all.
    fn take(&mut self, byte: u8) {
        let digit = byte.is_ascii_digit().then(|| u32::from(byte - b'0'));
        for way in std::mem::take(&mut self.ways) {
            match (way.next, digit) {
                (Next::Bytes(text), _) if text[0] == byte => match &text[1..] {
                    [] => self.open(way.rest, way.later, way.made),
                    left => self.ways.push(Way { next: Next::Bytes(left), ..way }),
                },
                (Next::Digit(limit), Some(digit)) => self.number(way, digit, limit),
                (Next::Digits(number, limit), Some(digit)) => self.number(way, 10 * u32::from(number) + digit, limit),
                _ => {}
            }
        }
    }

    /// A number within its limit may end here or, unless it is 0, take another digit.
    fn number(&mut self, way: Way, number: u32, limit: u16) {
        if number > u32::from(limit) {
            return;
        }
        let number = number as u16;
        let made = self.make(Piece::Number(number), way.made);
        self.open(way.rest, way.later, made);
        if number != 0 {
            self.ways.push(Way { next: Next::Digits(number, limit), ..way });
        }
    }

    fn make(&mut self, piece: Piece, made: Last) -> Last {
        self.made.push((piece, made));
        Some(self.made.len() - 1)
    }

    /// The pieces of a list, in the order in which they were made.
    fn pieces(&self, made: Last) -> Vec<Piece> {
        let entry = |last: Last| last.map(|last| self.made[last]);
        let mut pieces: Vec<Piece> =
            std::iter::successors(entry(made), |(_, before)| entry(*before)).map(|(piece, _)| piece).collect();
        pieces.reverse();
        pieces
    }
}
