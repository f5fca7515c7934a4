//! The loading figures of 01 and L8: which nodes stop, and the figures G, A, W and F (refusals 7 and 8).

use crate::table::{Node, Refusal, Written};

#[derive(Clone, Copy, Debug, PartialEq, Eq)]
pub struct Figures {
    pub g: u64,
    pub a: u64,
    pub w: u64,
    /// The bytes that one instant can park (L8).
    pub f: u64,
}

/// The figures of a tree, meeting the refusals 7 and 8 in their order.
pub fn load(root: &Node) -> Result<Figures, Refusal> {
    if let Some(index) = endless_loop(root) {
        return Err(Refusal::new(7, index));
    }
    let figures = Figures {
        g: figure(root, &|node| u64::from(matches!(node.written, Written::Generate(_)))),
        a: figure(root, &|node| u64::from(matches!(node.written, Written::Atom(_)))),
        w: figure(root, &|_| 1),
        f: figure(root, &parked),
    };
    if figures.g > 4094 || figures.a > 4096 || figures.w > 65_535 || figures.f > 16_384 {
        return Err(Refusal::new(8, 0));
    }
    Ok(figures)
}

/// A node stops if, freshly begun, it can't end in that same instant: by L2, whose rule asks of a branch
/// that a test leads to only where the test can be decided so before the end.
pub fn stops(node: &Node) -> bool {
    match &node.written {
        Written::Stop | Written::Loop(_) => true,
        Written::Nothing | Written::Atom(_) | Written::Generate(_) => false,
        Written::Seq(first, second) | Written::Par(first, second) => stops(first) || stops(second),
        Written::Await(c) => !c.early(true),
        Written::When(c, then, other) => (!c.early(true) || stops(then)) && (!c.early(false) || stops(other)),
        Written::Until(c, body, handler) => stops(body) && (!c.early(true) || stops(handler)),
        Written::Control(_, body) | Written::Local(_, body) => stops(body),
        Written::Repeat(count, body) => *count >= 1 && stops(body),
        Written::If(_, then, other) => stops(then) && stops(other),
        // A value of 0 ends it at once (L14), its event does (L8).
        Written::RepeatExt(..) | Written::Freezable(..) => false,
    }
}

/// The lowest Loop whose body doesn't stop: the first one met, as indexes rise in reading order.
fn endless_loop(node: &Node) -> Option<usize> {
    match &node.written {
        Written::Loop(body) if !stops(body) => Some(node.at),
        Written::Nothing | Written::Stop | Written::Atom(_) | Written::Generate(_) | Written::Await(_) => None,
        Written::Loop(body)
        | Written::Repeat(_, body)
        | Written::RepeatExt(.., body)
        | Written::Control(_, body)
        | Written::Local(_, body)
        | Written::Freezable(_, body) => endless_loop(body),
        Written::Seq(first, second)
        | Written::Par(first, second)
        | Written::When(_, first, second)
        | Written::If(_, first, second)
        | Written::Until(_, first, second) => endless_loop(first).or_else(|| endless_loop(second)),
    }
}

/// A figure over own weights. Sums that grow too large stay at the largest number, which lies
/// beyond every limit and still gives 0 when taken 0 times.
fn figure(node: &Node, weight: &dyn Fn(&Node) -> u64) -> u64 {
    let of = |child: &Node| figure(child, weight);
    // A count or a cap, of which a body that stops is begun at most twice in an instant.
    let repeated = |most: u16, body: &Node| {
        let times = if stops(body) { most.min(2) } else { most };
        of(body).saturating_mul(u64::from(times))
    };
    let below = match &node.written {
        Written::Nothing | Written::Stop | Written::Atom(_) | Written::Generate(_) | Written::Await(_) => 0,
        Written::Seq(first, second) | Written::Par(first, second) | Written::Until(_, first, second) => {
            of(first).saturating_add(of(second))
        }
        Written::When(_, then, other) | Written::If(_, then, other) => of(then).max(of(other)),
        Written::Control(_, body) | Written::Local(_, body) | Written::Freezable(_, body) => of(body),
        Written::Loop(body) => of(body).saturating_mul(2),
        Written::Repeat(count, body) => repeated(*count, body),
        Written::RepeatExt(_, cap, body) => repeated(u16::from(*cap), body),
    };
    weight(node).saturating_add(below)
}

/// A Freezable weighs what one piece of it takes in the store: 4 bytes, and 4 for each node of its body (L8).
fn parked(node: &Node) -> u64 {
    match &node.written {
        Written::Freezable(_, body) => 4 + 4 * body.size as u64,
        _ => 0,
    }
}
