//! The state: four bytes a node, judged (at rest, blame), read as a term and written back.

use crate::table::{Node, Written};
use crate::term::{Flag, Form, Term};

/// The phase that any kind may have: it reads as Nothing.
const NOTHING: u8 = 3;

/// The four bytes of a node.
#[derive(Clone, Copy, Default)]
struct Cell {
    phase: u8,
    flags: u8,
    count: u16,
}

fn cell(room: &[u8], node: &Node) -> Cell {
    let bytes = &room[4 * node.at..4 * node.at + 4];
    Cell { phase: bytes[0], flags: bytes[1], count: u16::from_be_bytes([bytes[2], bytes[3]]) }
}

fn put(room: &mut [u8], node: &Node, cell: Cell) {
    let [high, low] = cell.count.to_be_bytes();
    room[4 * node.at..4 * node.at + 4].copy_from_slice(&[cell.phase, cell.flags, high, low]);
}

/// The children of a node, the first one first.
pub fn below(node: &Node) -> Vec<&Node> {
    match &node.written {
        Written::Nothing | Written::Stop | Written::Atom(_) | Written::Generate(_) | Written::Await(_) => vec![],
        Written::Loop(body)
        | Written::Repeat(_, body)
        | Written::RepeatExt(.., body)
        | Written::Control(_, body)
        | Written::Local(_, body)
        | Written::Freezable(_, body) => vec![body],
        Written::Seq(first, second)
        | Written::Par(first, second)
        | Written::When(_, first, second)
        | Written::If(_, first, second)
        | Written::Until(_, first, second) => vec![first, second],
    }
}

/// The node of an index that is this one's or below it.
pub fn node_at(node: &Node, index: usize) -> &Node {
    match below(node).into_iter().rev().find(|child| child.at <= index) {
        Some(child) if node.at < index => node_at(child, index),
        _ => node,
    }
}

/// The lowest node that keeps the state from being at rest. Indexes rise in reading order,
/// so the first one met is the lowest.
pub fn blamed(node: &Node, room: &[u8]) -> Option<usize> {
    if !in_order(node, room) {
        return Some(node.at);
    }
    below(node).into_iter().find_map(|child| blamed(child, room))
}

/// The node's own bytes, the subtrees that it wants zero and its TERM flags are right.
fn in_order(node: &Node, room: &[u8]) -> bool {
    let zero = |child: &Node| room[4 * child.at..4 * (child.at + child.size)].iter().all(|&byte| byte == 0);
    let nothing = |child: &Node| cell(room, child).phase == NOTHING;
    let Cell { phase, flags, count } = cell(room, node);
    if phase == NOTHING {
        return flags == 0 && count == 0 && below(node).into_iter().all(zero);
    }
    // Only Par uses the flags and only Repeat and RepeatExt the count.
    let unused = match &node.written {
        Written::Par(..) => count == 0,
        Written::Repeat(..) | Written::RepeatExt(..) => flags == 0,
        _ => flags == 0 && count == 0,
    };
    let used = match &node.written {
        Written::Nothing | Written::Stop | Written::Atom(_) | Written::Generate(_) | Written::Await(_) => phase == 0,
        // A Freezable in 1 is pending, which isn't at rest (L8).
        Written::Control(..) | Written::Local(..) | Written::Freezable(..) => phase == 0,
        Written::Seq(first, second) => phase == 0 && zero(second) || phase == 2 && zero(first),
        Written::Par(first, second) => match (phase, flags) {
            (0, 0b00_00) => true,
            (0, 0b00_10) => nothing(first),
            (0, 0b10_00) => nothing(second),
            _ => false,
        },
        Written::Loop(body) => phase == 0 && zero(body) || phase == 1,
        Written::Repeat(times, body) => phase == 0 && count == 0 && zero(body) || phase == 1 && count < *times,
        Written::RepeatExt(_, cap, body) => match phase {
            0 => count == 0 && zero(body),
            1 => count < u16::from(*cap),
            _ => false,
        },
        Written::When(_, then, other) | Written::If(_, then, other) => match phase {
            0 => zero(then) && zero(other),
            1 => zero(other),
            2 => zero(then),
            _ => false,
        },
        Written::Until(_, body, handler) => phase == 0 && zero(handler) || phase == 2 && zero(body),
    };
    unused && used
}

/// The translation of 000, 2.2: the term of a node freshly begun.
pub fn fresh(node: &Node) -> Term {
    let form = match &node.written {
        Written::Nothing => Form::Nothing,
        Written::Stop => Form::Stop,
        Written::Atom(a) => Form::Atom(*a),
        Written::Seq(first, second) => Form::Seq(fresh(first), fresh(second)),
        Written::Par(first, second) => Form::Par(Flag::Susp, Flag::Susp, fresh(first), fresh(second)),
        Written::Loop(body) => Form::Loop(fresh(body)),
        Written::Repeat(n, body) => Form::Repeat(*n, fresh(body)),
        Written::RepeatExt(number, cap, body) => Form::RepeatExt(*number, *cap, fresh(body)),
        Written::Generate(s) => Form::Generate(*s),
        Written::Await(c) => Form::Await(c.clone()),
        Written::When(c, then, other) => Form::When(c.clone(), fresh(then), fresh(other)),
        Written::If(number, then, other) => Form::If(*number, fresh(then), fresh(other)),
        Written::Until(c, body, handler) => Form::Until(c.clone(), fresh(body), fresh(handler)),
        Written::Control(s, body) => Form::Control(*s, fresh(body)),
        Written::Local(s, body) => Form::LocalMinus(*s, fresh(body)),
        Written::Freezable(s, body) => Form::Freezable(*s, fresh(body)),
    };
    Term::new(node.at, form)
}

/// The term that a state at rest reads as.
pub fn read(node: &Node, room: &[u8]) -> Term {
    let Cell { phase, flags, count } = cell(room, node);
    let rest = |child: &Node| read(child, room);
    let form = match (&node.written, phase) {
        (_, NOTHING) => Form::Gone,
        (Written::Seq(first, second), 0) => Form::Seq(rest(first), fresh(second)),
        (Written::Seq(_, second), _) => return rest(second),
        (Written::Par(first, second), _) => Form::Par(flag(flags & 3), flag(flags >> 2), rest(first), rest(second)),
        (Written::Loop(body), 1) => Form::Seq(rest(body), fresh(node)),
        (Written::Repeat(_, body), 1) => Form::Seq(rest(body), Term::new(node.at, Form::Repeat(count, fresh(body)))),
        // What is left of a RepeatExt is a Repeat: its value was read when it began (L14).
        (Written::RepeatExt(.., body), 1) => {
            Form::Seq(rest(body), Term::new(node.at, Form::Repeat(count, fresh(body))))
        }
        (Written::When(_, then, _) | Written::If(_, then, _), 1) => return rest(then),
        (Written::When(_, _, other) | Written::If(_, _, other), 2) => return rest(other),
        (Written::Until(c, body, handler), 0) => Form::Until(c.clone(), rest(body), fresh(handler)),
        (Written::Until(_, _, handler), _) => return rest(handler),
        (Written::Control(s, body), _) => Form::Control(*s, rest(body)),
        (Written::Local(s, body), _) => Form::LocalMinus(*s, rest(body)),
        (Written::Freezable(s, body), _) => Form::Freezable(*s, rest(body)),
        _ => return fresh(node),
    };
    Term::new(node.at, form)
}

/// A Par's flag by its number at rest.
fn flag(number: u8) -> Flag {
    if number == 2 {
        Flag::Term
    } else {
        Flag::Susp
    }
}

/// Writes what an instant left: the residual, or Nothing in node 0 if it answered TERM.
pub fn write(root: &Node, answer: Flag, residual: &Term, room: &mut [u8]) {
    room[..4 * root.size].fill(0);
    if answer == Flag::Term {
        put(room, root, Cell { phase: NOTHING, ..Cell::default() });
    } else {
        write_term(root, residual, room);
    }
}

/// The bytes of a node and all below it where this residual is left of it (L8).
pub fn of_residual(node: &Node, residual: &Term) -> Vec<u8> {
    let mut room = vec![0; 4 * (node.at + node.size)];
    write_term(node, residual, &mut room);
    room.split_off(4 * node.at)
}

/// Writes a residual into the zero bytes of its node. A term marked with another node shows that
/// the node has been rewritten into the child that holds it.
fn write_term(node: &Node, term: &Term, room: &mut [u8]) {
    let mut phase = |number| put(room, node, Cell { phase: number, ..Cell::default() });
    if term.at != node.at {
        match &node.written {
            Written::Seq(_, second) => {
                phase(2);
                write_term(second, term, room);
            }
            Written::When(_, then, other) | Written::If(_, then, other) => {
                let chosen = if term.at < other.at { then } else { other };
                phase(if term.at < other.at { 1 } else { 2 });
                write_term(chosen, term, room);
            }
            Written::Until(_, _, handler) => {
                phase(2);
                write_term(handler, term, room);
            }
            _ => unreachable!("no other form is rewritten into its child"),
        }
        return;
    }
    match (&node.written, &*term.form) {
        (_, Form::Gone) => phase(NOTHING),
        (Written::Seq(first, _), Form::Seq(rest, _)) => write_term(first, rest, room),
        (Written::Par(first, second), Form::Par(a, b, t, u)) => {
            put(room, node, Cell { flags: number(*a) + 4 * number(*b), ..Cell::default() });
            write_branch(first, *a, t, room);
            write_branch(second, *b, u, room);
        }
        (Written::Loop(body), Form::Seq(rest, _)) => {
            phase(1);
            write_term(body, rest, room);
        }
        (Written::Repeat(_, body) | Written::RepeatExt(.., body), Form::Seq(rest, again)) => {
            let Form::Repeat(count, _) = &*again.form else { unreachable!("a Repeat goes on as a Repeat") };
            put(room, node, Cell { phase: 1, count: *count, ..Cell::default() });
            write_term(body, rest, room);
        }
        (Written::Until(_, body, _), Form::Until(_, rest, _)) => write_term(body, rest, room),
        (Written::Control(_, body), Form::Control(_, rest)) => write_term(body, rest, room),
        (Written::Local(_, body), Form::LocalMinus(_, rest)) => write_term(body, rest, room),
        (Written::Freezable(_, body), Form::Freezable(_, rest)) => write_term(body, rest, room),
        (_, Form::UntilStar(..) | Form::LocalPlus(..) | Form::FreezableStar(..)) => {
            unreachable!("an instant ends at rest")
        }
        _ => {}
    }
}

/// A branch that has answered TERM has left Nothing in its place.
fn write_branch(branch: &Node, flag: Flag, term: &Term, room: &mut [u8]) {
    if flag == Flag::Term {
        put(room, branch, Cell { phase: NOTHING, ..Cell::default() });
    } else {
        write_term(branch, term, room);
    }
}

/// The number of a Par's flag.
fn number(flag: Flag) -> u8 {
    match flag {
        Flag::Susp => 0,
        Flag::Stop => 1,
        Flag::Term => 2,
    }
}
