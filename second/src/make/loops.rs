//! Random calls round the border between accepted tables and refusal 7 (L2): loops over tests, figures that hang on what stops.

use super::calls::{self, Sort};
use super::draft::short::*;
use super::draft::{Cond, Draft, Records};
use super::random::Random;
use super::{grow, limits};
use crate::instant;

/// As many lines as asked for, the same for the same seed.
pub fn lines(cases: usize, seed: u64) -> impl Iterator<Item = String> {
    calls::of(Sort { weights: [46, 12, 12, 2, 24, 3, 1, 0], program: border, limit: heavy }, cases, seed)
}

/// Tables round the border alone, for the laws.
#[cfg(test)]
pub fn tables(cases: usize, seed: u64) -> impl Iterator<Item = Vec<u8>> {
    let mut r = Random::new(seed);
    (0..cases).map(move |_| border(&mut r).bytes())
}

/// A table that a single change takes over the border, on either side of it.
fn border(r: &mut Random) -> Records {
    loop {
        let records = grown(r);
        for _ in 0..12 {
            let changed = changed(r, records.clone());
            if endless(&changed) != endless(&records) {
                return if r.chance(50) { changed } else { records };
            }
        }
    }
}

fn endless(records: &Records) -> bool {
    instant::check(&records.bytes()).is_err_and(|refusal| refusal.number == 7)
}

/// Makes a change that leaves every record good: and or or, another test, Stop or Nothing, When or Until, a count.
fn changed(r: &mut Random, mut records: Records) -> Records {
    let (n, m) = (records.nodes.len(), records.configs.len());
    if m > 0 && r.chance(30) {
        let config = &mut records.configs[r.below(m)];
        if config.kind >= 2 {
            config.kind = 5 - config.kind;
        }
        return records;
    }
    let node = &mut records.nodes[r.below(n)];
    match node.kind {
        0 | 1 => node.kind = 1 - node.kind,
        6 => node.argument = r.below(3) as u16,
        // Another value's number or cap, which moves no border.
        14 => node.argument = r.below(16) as u16,
        15 => node.argument = r.below(80) as u16,
        // A Control stops as its body, a Freezable never.
        11 | 13 => node.kind = 24 - node.kind,
        9 | 10 if r.chance(50) => node.kind = 19 - node.kind,
        8..=10 => node.argument = r.below(m) as u16,
        _ => {}
    }
    records
}

/// One to three loops over small bodies, one beside, behind or within another.
fn grown(r: &mut Random) -> Records {
    let events = r.between(1, 3);
    let conds = (0..r.between(1, 4)).map(|_| grow::cond(r, events, 4)).collect();
    let mut ground = Ground { r, events, conds };
    let mut whole = ground.forever();
    for _ in 0..ground.r.weigh(&[60, 25, 15]) {
        let (event, test, other) = (ground.event(), ground.test(), ground.forever());
        whole = match ground.r.below(8) {
            0 => par(whole, other),
            1 => seq(other, whole),
            2 => when(test, whole, other),
            3 => until(test, other, whole),
            4 => control(event, par(other, whole)),
            5 => local(event, par(whole, other)),
            6 => repeat(2, whole),
            _ => forever(par(whole, other)),
        };
    }
    if r.chance(70) {
        Records::sharing(events as u16, &whole)
    } else {
        Records::new(events as u16, &whole)
    }
}

/// What loops are grown from.
struct Ground<'a> {
    r: &'a mut Random,
    events: usize,
    conds: Vec<Cond>,
}

impl Ground<'_> {
    fn event(&mut self) -> u16 {
        self.r.below(self.events) as u16
    }

    fn test(&mut self) -> Cond {
        let s = event(self.event());
        match self.r.below(5) {
            0 => s,
            1 => not(s),
            _ => self.r.pick(&self.conds).clone(),
        }
    }

    fn forever(&mut self) -> Draft {
        let nodes = self.r.between(1, 9);
        forever(self.body(nodes))
    }

    /// A body of about this many nodes, in which a few leaves and tests say whether it stops.
    fn body(&mut self, nodes: usize) -> Draft {
        if nodes <= 1 {
            return self.leaf();
        }
        let one = nodes - 1;
        let first = self.r.between(1, one.max(2) - 1);
        let second = one.saturating_sub(first).max(1);
        match self.r.weigh(&[10, 8, 28, 28, 5, 5, 12, 4, 12, 5, 6]) {
            0 => seq(self.body(first), self.body(second)),
            1 => par(self.body(first), self.body(second)),
            2 => when(self.test(), self.body(first), self.body(second)),
            3 => until(self.test(), self.body(first), self.body(second)),
            4 => control(self.event(), self.body(one)),
            5 => local(self.event(), self.body(one)),
            6 => repeat(self.r.below(4) as u16, self.body(one)),
            8 => choose(self.r.below(16) as u16, self.body(first), self.body(second)),
            9 => repeat_ext(self.r.below(16) as u16, self.r.below(5) as u16, self.body(one)),
            10 => freezable(self.event(), self.body(one)),
            _ => forever(self.body(one)),
        }
    }

    fn leaf(&mut self) -> Draft {
        match self.r.weigh(&[24, 14, 44, 9, 9]) {
            0 => stop(),
            1 => nothing(),
            2 => wait(self.test()),
            3 => atom(self.r.below(100) as u16),
            _ => generate(self.event()),
        }
    }
}

/// A table with a figure near its limit if a small body of tests stops, and mostly beyond it if not.
fn heavy(r: &mut Random) -> Records {
    let (leaf, limit) = limits::heavy_leaf(r);
    let half = repeat((limit / 2 + 2 - r.below(9)) as u16, leaf.clone());
    let many = r.between(3, limit + 1) as u16;
    let conds = vec![grow::cond(r, 2, 3), grow::cond(r, 2, 3)];
    let nodes = r.between(1, 4);
    let gate = Ground { r, events: 2, conds }.body(nodes);
    let program = match r.below(6) {
        0 => forever(seq(half, gate)),
        1 => repeat(many, par(gate, half)),
        2 => repeat(2, seq(half, gate)),
        3 => repeat(3, seq(gate, half)),
        4 => repeat(many, seq(leaf, gate)),
        _ => repeat(many, until(not(event(1)), gate, half)),
    };
    Records::new(2, &program)
}
