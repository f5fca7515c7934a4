//! Random programs, biased to few events that many forms share.

use super::draft::short::*;
use super::draft::{Cond, Draft, Records};
use super::random::Random;
use crate::env::{EVENTS, VALUES};

/// What a program is grown from.
struct Ground<'a> {
    r: &'a mut Random,
    /// V.
    events: usize,
    /// The conditions that tests choose from, so that several tests ask the same.
    conds: Vec<Cond>,
    /// How often each kind of step is taken.
    steps: [usize; 11],
}

/// A random program as records, mostly of an acceptable table.
pub fn program(r: &mut Random) -> Records {
    let lasting = r.chance(15);
    records(r, lasting)
}

/// A random program that never ends.
pub fn lasting(r: &mut Random) -> Records {
    records(r, true)
}

/// A random program of many branches that share few events, so that the order in which they run tells.
pub fn woven(r: &mut Random) -> Records {
    let events = r.between(2, 4);
    let program = weave(r, events, [26, 26, 20, 4, 7, 7, 4, 6, 5, 4, 7]);
    Records::sharing(events as u16, &program)
}

/// A random program of many tests over several events, within scopes and one behind another, so that instants wait.
pub fn waiting(r: &mut Random) -> Records {
    let events = r.between(2, 6);
    let program = weave(r, events, [10, 34, 3, 3, 12, 14, 12, 12, 4, 3, 8]);
    let mut records = Records::sharing(events as u16, &program);
    if r.chance(15) {
        spread(r, &mut records);
    }
    records
}

/// A random program in which the values that the box hands in choose and count, beside, behind and within one another (L14).
pub fn asking(r: &mut Random) -> Records {
    let events = r.between(1, 3);
    let program = weave(r, events, [12, 12, 14, 10, 4, 5, 3, 3, 30, 30, 5]);
    Records::sharing(events as u16, &program)
}

/// A random program of which much may be frozen, one Freezable beside, behind and within another (L8).
pub fn freezing(r: &mut Random) -> Records {
    let events = r.between(1, 4);
    let program = weave(r, events, [14, 10, 8, 12, 3, 4, 3, 5, 3, 4, 45]);
    let mut records = Records::sharing(events as u16, &program);
    if r.chance(10) {
        spread(r, &mut records);
    }
    records
}

fn weave(r: &mut Random, events: usize, steps: [usize; 11]) -> Draft {
    let conds = (0..r.between(1, 4)).map(|_| cond(r, events, 3)).collect();
    let branches = r.between(2, 8);
    Ground { r, events, conds, steps }.weave(branches)
}

/// Gives the events other numbers, anywhere below 1,024.
fn spread(r: &mut Random, records: &mut Records) {
    let step = 2 * r.below(EVENTS / 2) + 1;
    let elsewhere = |event: u16| ((usize::from(event) + 1) * step % EVENTS) as u16;
    for node in records.nodes.iter_mut().filter(|node| matches!(node.kind, 7 | 11..=13)) {
        node.argument = elsewhere(node.argument);
    }
    for config in &mut records.configs {
        if let Some(number) = config.number() {
            config.set_number(elsewhere(number));
        }
    }
    records.events = EVENTS as u16;
}

fn records(r: &mut Random, lasting: bool) -> Records {
    let events = match r.weigh(&[10, 30, 25, 15, 10, 6, 2, 2]) {
        5 => r.between(6, 20),
        6 => r.between(21, 256),
        7 => r.between(257, EVENTS),
        few => few + 1,
    };
    let conds = (0..r.between(1, 5)).map(|_| cond(r, events, 3)).collect();
    let nodes = match r.weigh(&[12, 40, 34, 12, 2]) {
        0 => r.between(1, 3),
        1 => r.between(4, 10),
        2 => r.between(11, 25),
        3 => r.between(26, 60),
        _ => r.between(61, 160),
    };
    let mut ground = Ground { r, events, conds, steps: [1; 11] };
    let program = match ground.r.weigh(&[50, 10, 32, 8]) {
        0 => ground.draft(nodes),
        1 => ground.chain(nodes / 5 + 1),
        2 => ground.dominoes(nodes / 4),
        _ => ground.stopping(nodes),
    };
    let program = if lasting { forever(seq(program, stop())) } else { program };
    let events = ground.events;
    let mut records =
        if r.chance(70) { Records::sharing(events as u16, &program) } else { Records::new(events as u16, &program) };
    if r.chance(15) {
        // Configurations that no test names.
        let unused = cond(r, events, 4);
        records.put_cond(&unused);
    }
    if r.chance(8) {
        spread(r, &mut records);
    }
    records
}

/// A random condition of at most this height.
pub fn cond(r: &mut Random, events: usize, height: usize) -> Cond {
    if height <= 1 || r.chance(35) {
        return event(r.below(events) as u16);
    }
    match r.below(3) {
        0 => not(cond(r, events, height - 1)),
        1 => and(cond(r, events, height - 1), cond(r, events, height - 1)),
        _ => or(cond(r, events, height - 1), cond(r, events, height - 1)),
    }
}

impl Ground<'_> {
    fn event(&mut self) -> u16 {
        // Low events more often, so that forms meet.
        let bound = if self.r.chance(60) { self.events.min(3) } else { self.events };
        self.r.below(bound) as u16
    }

    fn test(&mut self) -> Cond {
        if self.r.chance(40) {
            event(self.event())
        } else {
            self.r.pick(&self.conds).clone()
        }
    }

    fn leaf(&mut self) -> Draft {
        match self.r.weigh(&[6, 14, 22, 30, 28]) {
            0 => nothing(),
            1 => stop(),
            2 => self.atom(),
            3 => generate(self.event()),
            _ => wait(self.test()),
        }
    }

    fn atom(&mut self) -> Draft {
        atom(if self.r.chance(90) { self.r.below(100) as u16 } else { self.r.below(65_536) as u16 })
    }

    fn count(&mut self) -> u16 {
        match self.r.weigh(&[8, 22, 30, 20, 12, 6, 2]) {
            5 => self.r.between(5, 12) as u16,
            6 => self.r.between(13, 400) as u16,
            count => count as u16,
        }
    }

    /// The number of a value, low ones more often, so that several forms ask for the same.
    fn value(&mut self) -> u16 {
        if self.r.chance(70) {
            self.r.below(3) as u16
        } else {
            self.r.below(VALUES) as u16
        }
    }

    fn cap(&mut self) -> u16 {
        match self.r.weigh(&[8, 14, 26, 22, 14, 8, 5, 3]) {
            5 => self.r.between(5, 12) as u16,
            6 => self.r.below(256) as u16,
            7 => 255,
            cap => cap as u16,
        }
    }

    /// Any program of about this many nodes.
    fn draft(&mut self, nodes: usize) -> Draft {
        if nodes <= 1 || self.r.chance(4) {
            return self.leaf();
        }
        let one = nodes - 1;
        let (two, rest) = self.split(one);
        match self.r.weigh(&[24, 28, 7, 9, 8, 10, 7, 9, 6, 6, 8]) {
            0 => seq(self.draft(two), self.draft(rest)),
            1 => par(self.draft(two), self.draft(rest)),
            // Now and then a body that doesn't stop.
            2 => forever(if self.r.chance(12) { self.draft(one) } else { self.stopping(one) }),
            3 => repeat(self.count(), self.draft(one)),
            4 => when(self.test(), self.draft(two), self.draft(rest)),
            5 => until(self.test(), self.draft(two), self.draft(rest)),
            6 => control(self.event(), self.draft(one)),
            7 => local(self.event(), self.draft(one)),
            8 => choose(self.value(), self.draft(two), self.draft(rest)),
            9 => repeat_ext(self.value(), self.cap(), self.draft(one)),
            _ => freezable(self.event(), if self.r.chance(50) { self.draft(one) } else { self.stopping(one) }),
        }
    }

    /// A program that can't end in the instant in which it is begun.
    fn stopping(&mut self, nodes: usize) -> Draft {
        if nodes <= 1 {
            return if self.r.chance(75) { stop() } else { wait(self.late()) };
        }
        let one = nodes - 1;
        let (two, rest) = self.split(one);
        match self.r.weigh(&[24, 14, 14, 8, 7, 7, 7, 7, 7, 5, 5, 5, 5]) {
            0 => seq(self.draft(two), self.stopping(rest)),
            1 => seq(self.stopping(two), self.draft(rest)),
            2 => par(self.draft(two), self.stopping(rest)),
            3 => par(self.stopping(two), self.draft(rest)),
            4 => forever(self.stopping(one)),
            5 => repeat(self.count().max(1), self.stopping(one)),
            6 => when(self.test(), self.stopping(two), self.stopping(rest)),
            7 => until(self.test(), self.stopping(two), self.stopping(rest)),
            8 => control(self.event(), self.stopping(one)),
            9 => local(self.event(), self.stopping(one)),
            10 => when(self.late(), self.draft(two), self.stopping(rest)),
            11 => until(self.late(), self.stopping(two), self.draft(rest)),
            _ => choose(self.value(), self.stopping(two), self.stopping(rest)),
        }
    }

    /// A test that isn't true before the end: an event's absence, perhaps and something more.
    fn late(&mut self) -> Cond {
        let absent = not(event(self.event()));
        if self.r.chance(60) {
            absent
        } else {
            and(self.test(), absent)
        }
    }

    /// Branches that wake each other, often against the order in which a pass runs them.
    fn chain(&mut self, links: usize) -> Draft {
        let mut whole = self.leaf();
        for _ in 0..links {
            let reaction = match self.r.below(4) {
                0 => generate(self.event()),
                1 => seq(self.atom(), generate(self.event())),
                2 => until(self.test(), self.stopping(2), seq(self.atom(), generate(self.event()))),
                _ => when(self.test(), generate(self.event()), self.leaf()),
            };
            let link = seq(wait(self.test()), reaction);
            whole = if self.r.chance(70) { par(whole, link) } else { par(link, whole) };
            if self.r.chance(20) {
                whole = local(self.event(), whole);
            }
        }
        whole
    }

    /// Branches of which each wakes the next by an event of its own, so that an instant takes many passes
    /// while tests, scopes and bodies are held in between.
    fn dominoes(&mut self, links: usize) -> Draft {
        self.events = self.events.max(links + 1).min(EVENTS);
        let mut whole = if self.r.chance(50) { generate(0) } else { self.leaf() };
        for link in 0..links.min(EVENTS - 1) {
            let (wake, next) = (event(link as u16), generate(link as u16 + 1));
            let next = match self.r.below(10) {
                0..=4 => next,
                5..=8 => seq(self.atom(), next),
                _ => seq(self.leaf(), next),
            };
            let link = match self.r.weigh(&[30, 14, 14, 14, 14, 4, 10, 8]) {
                0 => seq(wait(wake), next),
                1 => control(link as u16, seq(next, self.leaf())),
                2 => when(wake, next, self.leaf()),
                3 => until(wake, self.stopping(3), next),
                4 => local(self.event(), par(seq(wait(wake), next), self.leaf())),
                5 => local(link as u16 + 1, par(seq(wait(wake), seq(next, self.leaf())), wait(event(link as u16 + 1)))),
                6 => seq(wait(or(wake, self.test())), seq(next, self.stopping(2))),
                // Pending until it is woken.
                _ => seq(freezable(link as u16, self.stopping(2)), next),
            };
            whole = if self.r.chance(75) { par(link, whole) } else { par(whole, link) };
            whole = match self.r.below(25) {
                0 => local(self.event(), whole),
                1 => until(self.test(), whole, self.leaf()),
                2 => seq(whole, self.leaf()),
                3 => repeat(2, whole),
                4 => forever(seq(whole, stop())),
                5 => freezable(self.event(), whole),
                _ => whole,
            };
        }
        whole
    }

    /// So many branches side by side, each a few steps long, with now and then a form round those so far.
    fn weave(&mut self, branches: usize) -> Draft {
        let mut whole = self.thread();
        for _ in 1..branches {
            let other = self.thread();
            whole = if self.r.chance(50) { par(whole, other) } else { par(other, whole) };
            whole = match self.r.below(36) {
                0 => local(self.event(), whole),
                1 => until(self.test(), whole, self.step()),
                2 => seq(whole, self.step()),
                3 => seq(self.step(), whole),
                4 => repeat(2, whole),
                5 => forever(seq(whole, stop())),
                6 => control(self.event(), whole),
                7 => when(self.test(), whole, self.step()),
                8 => choose(self.value(), whole, self.step()),
                9 => choose(self.value(), self.step(), whole),
                10 => repeat_ext(self.value(), self.r.between(1, 3) as u16, whole),
                11 => freezable(self.event(), whole),
                12 => freezable(self.event(), seq(whole, stop())),
                _ => whole,
            };
        }
        whole
    }

    fn thread(&mut self) -> Draft {
        let steps = self.r.between(1, 4);
        (1..steps).fold(self.step(), |before, _| seq(before, self.step()))
    }

    fn step(&mut self) -> Draft {
        match self.r.weigh(&self.steps) {
            0 => generate(self.event()),
            1 => wait(self.test()),
            2 => self.atom(),
            3 => stop(),
            4 => when(self.test(), self.leaf(), self.leaf()),
            5 => until(self.test(), seq(self.leaf(), stop()), self.leaf()),
            6 => control(self.event(), self.leaf()),
            7 => local(self.event(), par(self.leaf(), self.leaf())),
            8 => choose(self.value(), self.leaf(), self.leaf()),
            9 => {
                let body = if self.r.chance(50) { self.leaf() } else { seq(self.leaf(), stop()) };
                repeat_ext(self.value(), self.cap(), body)
            }
            _ => self.frozen(),
        }
    }

    /// A Freezable over a small body, or within what decides whether and how often it parks.
    fn frozen(&mut self) -> Draft {
        let body = match self.r.below(9) {
            0 => stop(),
            1 => self.leaf(),
            2 => wait(self.test()),
            3 => seq(self.leaf(), seq(stop(), self.leaf())),
            4 => par(self.leaf(), self.stopping(2)),
            5 => repeat(self.count(), seq(stop(), self.leaf())),
            6 => freezable(self.event(), self.stopping(2)),
            7 => local(self.event(), par(self.leaf(), stop())),
            _ => forever(seq(freezable(self.event(), self.stopping(1)), stop())),
        };
        let frozen = freezable(self.event(), body);
        match self.r.below(16) {
            0 => repeat(self.r.below(3) as u16, frozen),
            1 => repeat_ext(self.value(), self.r.below(3) as u16, frozen),
            2 => forever(seq(frozen, stop())),
            3 => forever(seq(stop(), frozen)),
            4 => local(self.event(), par(frozen, self.leaf())),
            5 => local(self.event(), frozen),
            6 => until(self.test(), frozen, self.leaf()),
            7 => when(self.test(), frozen, self.leaf()),
            8 => control(self.event(), frozen),
            9 => choose(self.value(), frozen, self.leaf()),
            _ => frozen,
        }
    }

    /// Divides nodes among two children, each at least one.
    fn split(&mut self, nodes: usize) -> (usize, usize) {
        let first = self.r.between(1, nodes.max(2) - 1);
        (first, nodes.saturating_sub(first).max(1))
    }
}
