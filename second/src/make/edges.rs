//! Call lines at every limit of 01, at every kind of fault, and of every rule.

use super::configuration_edges;
use super::draft::short::*;
use super::draft::{Cond, Draft, Records};
use super::event_edges;
use super::limits::{broad, filled, nots, weighing, wrapped};
use super::loop_edges;
use super::park_edges;
use super::value_edges;
use super::wait_edges;
use crate::env::{Events, Values};
use crate::instant;
use crate::lines::{print, Call};
use std::collections::HashSet;

/// All edge lines, each once, in the order of the refusals and then of the rules.
pub fn lines() -> Vec<String> {
    let mut edges = Edges(vec![]);
    edges.lengths();
    edges.ranges();
    edges.distances();
    edges.configurations();
    edges.nodes();
    edges.depths();
    edges.loops();
    edges.figures();
    edges.rooms();
    edges.states();
    edges.marks_and_counts();
    edges.lowest_blamed();
    edges.handed_events();
    edges.several_faults();
    edges.odd_lines();
    edges.bench_list();
    edges.passes();
    edges.pairs();
    edges.tests();
    edges.scopes();
    edges.nests();
    loop_edges::add(&mut edges);
    wait_edges::add(&mut edges);
    event_edges::add(&mut edges);
    configuration_edges::add(&mut edges);
    value_edges::add(&mut edges);
    park_edges::add(&mut edges);
    let mut met = HashSet::new();
    edges.0.retain(|line| met.insert(line.clone()));
    edges.0
}

/// What stands in rooms beyond what a call may write.
pub const OTHER: u8 = 0xa5;

/// A lone Nothing with these configuration records.
fn with_configs(events: u16, configs: &[(u8, u8, u16)]) -> Records {
    Records::raw(events, &[(0, 0, 1)], configs)
}

/// A table whose trailer has this number in one of its five fields.
fn trailer(records: &Records, field: usize, number: u16) -> Vec<u8> {
    let mut bytes = records.bytes();
    let place = bytes.len() - 10 + 2 * field;
    bytes[place..place + 2].copy_from_slice(&number.to_be_bytes());
    bytes
}

/// A store begun empty, with room for what so many instants can park and a byte more.
pub fn empty_store(table: &[u8], instants: usize) -> Vec<u8> {
    let most = instant::check(table).map_or(0, |figures| figures.f as usize);
    let mut store = vec![OTHER; 2 + instants * most + 1];
    store[..2].fill(0);
    store
}

fn set(events: &[u16]) -> Events {
    events.iter().copied().collect()
}

/// Lines found so far.
pub struct Edges(pub Vec<String>);

impl Edges {
    fn add(&mut self, call: Call) {
        self.0.push(print(&call));
    }

    pub fn check(&mut self, table: &[u8]) {
        self.add(Call::Check { table: table.to_vec() });
    }

    fn start(&mut self, table: &[u8], state: Vec<u8>) {
        self.add(Call::Start { table: table.to_vec(), state });
    }

    pub fn instant(&mut self, table: &[u8], state: &[u8], events: &[u16], places: usize) {
        self.valued(table, state, events, Values::default(), places);
    }

    /// An instant with values handed in.
    fn valued(&mut self, table: &[u8], state: &[u8], events: &[u16], values: Values, places: usize) {
        self.lent(table, state, events, values, places, &empty_store(table, 1));
    }

    /// An instant with a store of its own (L8).
    pub fn lent(&mut self, table: &[u8], state: &[u8], events: &[u16], values: Values, places: usize, store: &[u8]) {
        let (table, state, store) = (table.to_vec(), state.to_vec(), store.to_vec());
        self.add(Call::Instant { table, state, events: set(events), values, row: vec![0xa5a5; places], store });
    }

    /// A piece taken into rooms of so many bytes.
    pub fn take(&mut self, table: &[u8], store: &[u8], event: u16, table_room: usize, state_room: usize) {
        let (table, store) = (table.to_vec(), store.to_vec());
        let (table_room, state_room) = (vec![OTHER; table_room], vec![OTHER; state_room]);
        self.add(Call::Take { table, store, event, table_room, state_room });
    }

    /// The same table in all three calls, in rooms that would do for 16 nodes.
    pub fn all_calls(&mut self, table: &[u8]) {
        self.check(table);
        self.start(table, vec![OTHER; 64]);
        self.instant(table, &[0; 64], &[], 4);
    }

    /// Instants one after the other from a state on, in rooms with places to spare.
    pub fn go_on(&mut self, records: &Records, state: Vec<u8>, instants: &[&[u16]]) {
        let instants: Vec<_> = instants.iter().map(|&events| (events, Values::default())).collect();
        self.ask(records, state, &instants);
    }

    /// The same, each with values handed in.
    pub fn ask(&mut self, records: &Records, state: Vec<u8>, instants: &[(&[u16], Values)]) {
        let table = records.bytes();
        let places = instant::check(&table).map_or(0, |figures| figures.a as usize) + 1;
        let (mut state, mut store) = (state, empty_store(&table, instants.len()));
        state.extend([OTHER; 2]);
        for &(events, values) in instants {
            self.lent(&table, &state, events, values, places, &store);
            let _ = instant::instant(&table, &mut state, set(events), values, &mut vec![0; places], &mut store);
        }
    }

    /// Instants one after the other from fresh on.
    pub fn play(&mut self, events: u16, program: &Draft, instants: &[&[u16]]) {
        let records = Records::new(events, program);
        self.go_on(&records, vec![0; 4 * records.nodes.len()], instants);
    }

    // Refusal 1: 15 and 16, 32,778 and 32,779 bytes, also in lines at their own limits.
    fn lengths(&mut self) {
        let nothing = Records::new(1, &nothing()).bytes();
        self.all_calls(&[]);
        self.all_calls(&nothing[..1]);
        self.all_calls(&nothing[1..]);
        self.all_calls(&nothing[..15]);
        self.all_calls(&nothing);
        self.all_calls(&[&[0], &nothing[..]].concat());
        let greatest = filled(4096, 2048, 1024);
        self.check(&greatest.bytes());
        self.instant(&greatest.bytes(), &[0; 4 * 4096], &[0], 0);
        self.check(&[&[0], &greatest.bytes()[..]].concat());
        self.check(&trailer(&greatest, 4, 8191));
        self.check(&vec![0; 33_000]);
        self.check(&vec![0; 33_001]);
    }

    // Refusal 2: N 1 to 4,096, M 0 to 2,048, V 1 to 1,024; 2 before 3 whatever the length (A12).
    fn ranges(&mut self) {
        let nothing = Records::new(1, &nothing());
        for (field, numbers) in [
            (0, &[0, 1, 2, 4096, 4097, 65_535][..]),
            (1, &[0, 1, 2048, 2049, 65_535]),
            (2, &[0, 1, 255, 256, 257, 1_023, 1_024, 1_025, 65_535]),
        ] {
            for &number in numbers {
                self.all_calls(&trailer(&nothing, field, number));
            }
        }
        self.check(&filled(4096, 0, 1).bytes());
        self.check(&filled(4097, 0, 1).bytes());
        self.check(&filled(1, 2048, 1).bytes());
        self.check(&filled(1, 2049, 1).bytes());
    }

    // Refusal 3: each distance and the length, one at a time.
    fn distances(&mut self) {
        let records = Records::new(2, &par(wait(event(0)), wait(not(event(1)))));
        let bytes = records.bytes();
        for number in [0, 29, 31, 18, 12, 65_535] {
            self.all_calls(&trailer(&records, 3, number));
        }
        for number in [0, 11, 13, 30, 65_535] {
            self.all_calls(&trailer(&records, 4, number));
        }
        self.check(&[&[0], &bytes[..]].concat());
        self.check(&[&[0; 6], &bytes[..]].concat());
        self.check(&bytes[1..]);
        self.check(&bytes[6..]);
        self.check(&trailer(&records, 0, 4));
        self.check(&trailer(&records, 1, 2));
        // Every byte of a small table in turn, off by one and with its highest bit turned.
        for place in 0..bytes.len() {
            for change in [1, 128] {
                let mut changed = bytes.clone();
                changed[place] ^= change;
                self.check(&changed);
            }
        }
    }

    // Refusal 4: kinds, events, sizes, layout and height (A1 to A3, A5, A6).
    fn configurations(&mut self) {
        for configs in [
            &[(0, 1, 1)][..],
            &[(0, 2, 1)],
            &[(4, 0, 1)],
            &[(255, 0, 1)],
            &[(0, 0, 0)],
            &[(0, 0, 2)],
            &[(0, 0, 2), (0, 0, 1)],
            &[(0, 0, 1), (0, 0, 1)],
            &[(0, 0, 1), (0, 0, 2)],
            &[(1, 0, 2), (0, 1, 1)],
            &[(1, 1, 2), (0, 1, 1)],
            &[(1, 0, 2)],
            &[(1, 0, 1)],
            &[(1, 0, 3), (0, 0, 2)],
            &[(1, 0, 3), (0, 1, 1), (0, 0, 1)],
            &[(0, 0, 1), (1, 0, 2), (0, 1, 1), (0, 0, 1)],
            &[(2, 0, 3), (0, 0, 1), (0, 1, 1)],
            &[(3, 0, 3), (0, 0, 1), (0, 1, 1)],
            &[(2, 1, 3), (0, 0, 1), (0, 1, 1)],
            &[(3, 1, 3), (0, 0, 1), (0, 1, 1)],
            &[(2, 0, 3), (0, 0, 1)],
            &[(3, 0, 3), (0, 0, 2), (0, 1, 1)],
            &[(2, 0, 4), (0, 0, 1), (0, 1, 1)],
            &[(2, 0, 2), (0, 0, 1), (0, 1, 1)],
            &[(2, 0, 4), (0, 0, 1), (0, 1, 2)],
            // A written size of 0: the second part is the first again.
            &[(2, 0, 1), (0, 0, 0)],
            &[(3, 0, 1), (0, 0, 0), (0, 0, 1)],
            // Sums are unbounded: 1 + 2 + 65,535 isn't 2.
            &[(2, 0, 2), (0, 0, 2), (0, 0, 1), (0, 0, 65_535)],
            &[(1, 0, 0), (0, 0, 65_535)],
            &[(2, 0, 5), (2, 0, 2), (0, 0, 2), (0, 0, 2), (0, 0, 65_535)],
        ] {
            self.check(&with_configs(2, configs).bytes());
        }
        self.check(&with_configs(256, &[(0, 255, 1)]).bytes());
        self.check(&with_configs(255, &[(0, 255, 1)]).bytes());
        self.check(&with_configs(255, &[(0, 254, 1)]).bytes());
        self.all_calls(&with_configs(1, &[(0, 1, 1)]).bytes());
        // Heights 16 and 17, by `not`, by the first and by the second part.
        for times in 14..=18 {
            self.check(&Records::new(1, &wait(nots(times, event(0)))).bytes());
            let first = (0..times).fold(event(0), |inner, _| and(inner, event(0)));
            self.check(&Records::new(1, &wait(first)).bytes());
            let second = (0..times).fold(event(0), |inner, _| or(event(0), inner));
            self.check(&Records::new(1, &wait(second)).bytes());
            let within = and(event(0), nots(times, event(0)));
            self.check(&Records::new(1, &wait(within)).bytes());
        }
        // A record bad for another reason counts as height 1 (A2).
        for times in [14, 15, 16] {
            let mut records = Records::new(1, &wait(nots(times, event(0))));
            records.configs[times].kind = 4;
            self.check(&records.bytes());
        }
        for place in [0, 1, 9, 10, 20] {
            let mut records = Records::new(1, &wait(nots(20, event(0))));
            records.configs[place].event = 1;
            self.check(&records.bytes());
        }
        // It is bad by its size alone, and the records above it go by that size: they are good unless its own height counts.
        for place in [1, 9, 10, 15] {
            let mut records = Records::new(1, &par(wait(nots(20, event(0))), wait(event(0))));
            for config in &mut records.configs[..=place] {
                config.size += 1;
            }
            self.check(&records.bytes());
        }
        // Two towers, the later one too high; then the earlier bad for another reason.
        let mut towers = Records::new(1, &par(wait(nots(15, event(0))), wait(nots(16, event(0)))));
        self.check(&towers.bytes());
        towers.configs[15].size = 2;
        self.check(&towers.bytes());
        // A test may name the middle of another's configuration (A5).
        let mut middle = Records::new(2, &par(wait(and(not(event(0)), event(1))), wait(event(1))));
        for index in 0..6 {
            middle.nodes[2].argument = index;
            self.go_on(&middle, vec![0; 12], &[&[1], &[0]]);
        }
    }

    // Refusal 5: kinds, bytes, arguments, sizes and layout (A3, A4, A6).
    fn nodes(&mut self) {
        let leaf = |kind, argument| Records::raw(2, &[(kind, argument, 1)], &[(0, 0, 1), (0, 1, 1)]);
        for kind in 0..=14 {
            for argument in [0, 1, 2, 256, 65_535] {
                self.check(&leaf(kind, argument).bytes());
            }
        }
        let first = |kind, argument| Records::raw(2, &[(kind, argument, 2), (1, 0, 1)], &[(0, 0, 1), (0, 1, 1)]);
        let two =
            |kind, argument| Records::raw(2, &[(kind, argument, 3), (1, 0, 1), (1, 0, 1)], &[(0, 0, 1), (0, 1, 1)]);
        for kind in 3..=12 {
            for argument in [0, 1, 2, 65_535] {
                self.check(&first(kind, argument).bytes());
                self.check(&two(kind, argument).bytes());
            }
        }
        for kind in 0..=12 {
            let mut records = if matches!(kind, 3 | 4 | 9 | 10) { two(kind, 0) } else { first(kind, 0) };
            if matches!(kind, 0 | 1 | 2 | 7 | 8) {
                records = leaf(kind, 0);
            }
            records.nodes[0].zero = 1;
            self.check(&records.bytes());
            records.nodes[0].zero = 0;
            for size in [0, 1, 2, 3, 4, 65_535] {
                records.nodes[0].size = size;
                self.check(&records.bytes());
            }
        }
        self.check(&Records::new(256, &generate(255)).bytes());
        self.check(&Records::new(256, &generate(256)).bytes());
        for form in [generate as fn(u16) -> Draft, |s| control(s, nothing()), |s| local(s, nothing())] {
            for s in [256, 1_022, 1_023, 1_024, 1_279, 65_535] {
                self.check(&Records::new(1_023, &form(s)).bytes());
                self.check(&Records::new(1_024, &form(s)).bytes());
            }
        }
        self.check(&Records::new(256, &control(255, local(255, nothing()))).bytes());
        self.check(&Records::new(255, &control(254, local(255, nothing()))).bytes());
        self.check(&Records::new(255, &control(255, local(255, nothing()))).bytes());
        self.check(&Records::raw(1, &[(8, 0, 1)], &[]).bytes());
        for nodes in [
            // Record 0 must have size N.
            &[(0, 0, 1), (0, 0, 1)][..],
            &[(5, 0, 2), (1, 0, 1), (0, 0, 1)],
            &[(3, 0, 3), (0, 0, 1), (0, 0, 1), (0, 0, 1)],
            // The child's written size counts, good or not (A4).
            &[(5, 0, 3), (1, 0, 2), (0, 0, 1)],
            &[(5, 0, 3), (1, 0, 2)],
            &[(3, 0, 4), (0, 0, 1), (0, 0, 2), (0, 0, 1)],
            &[(3, 0, 4), (0, 0, 2), (0, 0, 1), (0, 0, 1)],
            &[(3, 0, 2), (0, 0, 1)],
            &[(3, 0, 3), (0, 0, 2), (0, 0, 1)],
            &[(3, 0, 3), (0, 0, 1), (5, 0, 1)],
            &[(3, 0, 3), (5, 0, 1), (1, 0, 1)],
            // Unbounded sums, and a written size of 0 (A3).
            &[(3, 0, 5), (3, 0, 2), (0, 0, 2), (0, 0, 2), (0, 0, 65_535)],
            &[(3, 0, 2), (3, 0, 1), (0, 0, 0)],
            &[(4, 0, 3), (4, 0, 1), (0, 0, 0)],
            &[(3, 0, 1), (0, 0, 0)],
            &[(5, 0, 0), (1, 0, 65_535)],
            &[(4, 0, 4), (11, 0, 2), (0, 0, 1), (0, 0, 1)],
            &[(4, 0, 4), (0, 0, 1), (11, 0, 2), (0, 0, 1)],
            &[(4, 0, 4), (0, 0, 1), (11, 0, 1), (0, 0, 1)],
        ] {
            self.all_calls(&Records::raw(1, nodes, &[]).bytes());
        }
    }

    // Refusal 6: depths 64 and 65, by each form and on each side.
    fn depths(&mut self) {
        let ways: [fn(usize, Draft) -> Draft; 9] = [
            |_, t| control(0, t),
            |_, t| local(0, t),
            |_, t| seq(nothing(), t),
            |_, t| seq(t, nothing()),
            |_, t| par(stop(), t),
            |_, t| when(event(0), t, stop()),
            |_, t| until(event(0), stop(), t),
            |_, t| repeat(1, t),
            |number, t| if number % 2 == 0 { forever(t) } else { par(t, nothing()) },
        ];
        for wrap in ways {
            for times in [63, 64] {
                self.check(&Records::sharing(1, &wrapped(times, stop(), wrap)).bytes());
            }
        }
        let program = |times| wrapped(times, nothing(), |_, t| control(0, t));
        self.all_calls(&Records::new(1, &program(64)).bytes());
        self.play(1, &program(63), &[&[], &[0]]);
        // Two too deep nodes: the lower one.
        self.check(&Records::new(1, &wrapped(63, seq(stop(), stop()), |_, t| seq(t, stop()))).bytes());
        self.check(&Records::new(1, &seq(broad(5), program(64))).bytes());
        self.check(&Records::new(1, &wrapped(70, stop(), |_, t| control(0, t))).bytes());
    }

    // Refusal 7: what stops and what doesn't (A11).
    fn loops(&mut self) {
        let c = || event(0);
        for body in [
            nothing(),
            stop(),
            atom(1),
            generate(0),
            wait(c()),
            seq(stop(), nothing()),
            seq(nothing(), stop()),
            seq(nothing(), wait(c())),
            par(stop(), nothing()),
            par(nothing(), stop()),
            par(nothing(), atom(1)),
            when(c(), stop(), stop()),
            when(c(), stop(), nothing()),
            when(c(), nothing(), stop()),
            until(c(), stop(), stop()),
            until(c(), stop(), nothing()),
            until(c(), nothing(), stop()),
            control(0, stop()),
            control(0, nothing()),
            local(0, stop()),
            local(0, nothing()),
            repeat(0, stop()),
            repeat(1, stop()),
            repeat(2, stop()),
            repeat(1, nothing()),
            forever(stop()),
            forever(nothing()),
            forever(forever(nothing())),
            seq(wait(c()), stop()),
        ] {
            self.check(&Records::new(1, &forever(body)).bytes());
        }
        let bad = || forever(wait(c()));
        self.all_calls(&Records::new(1, &bad()).bytes());
        self.check(&Records::new(1, &par(bad(), bad())).bytes());
        self.check(&Records::new(1, &par(forever(stop()), bad())).bytes());
        self.check(&Records::new(1, &seq(bad(), forever(stop()))).bytes());
        for program in [
            when(c(), nothing(), bad()),
            when(c(), bad(), nothing()),
            until(c(), nothing(), bad()),
            until(c(), bad(), nothing()),
            control(0, bad()),
            local(0, bad()),
            repeat(0, bad()),
            repeat(3, bad()),
            forever(seq(bad(), stop())),
            forever(when(c(), bad(), nothing())),
            forever(until(c(), nothing(), bad())),
            forever(repeat(0, bad())),
        ] {
            self.check(&Records::new(1, &program).bytes());
        }
    }

    // Refusal 8: G 4,094, A 4,096, W 65,535 and one more; m and 0 times anything (A7 to A9).
    fn figures(&mut self) {
        let heavy = || repeat(65_535, repeat(65_535, generate(0)));
        for (leaf, limit) in [(generate(0), 4_094), (atom(9), 4_096), (nothing(), 65_534)] {
            let half = |more| repeat(limit / 2 + more, leaf.clone());
            for program in [
                repeat(limit, leaf.clone()),
                repeat(limit + 1, leaf.clone()),
                seq(half(0), half(0)),
                seq(half(0), half(1)),
                par(half(1), half(0)),
                until(event(0), half(0), half(0)),
                until(event(0), half(1), half(0)),
                when(event(0), repeat(limit, leaf.clone()), half(0)),
                when(event(0), half(0), repeat(limit + 1, leaf.clone())),
                when(event(0), repeat(limit + 1, leaf.clone()), nothing()),
                forever(par(stop(), half(0))),
                forever(par(stop(), half(1))),
                repeat(2, half(0)),
                repeat(2, half(1)),
                repeat(3, half(0)),
                repeat(9, seq(half(0), stop())),
                repeat(9, seq(half(1), stop())),
                control(0, local(0, half(2))),
                seq(repeat(limit, leaf.clone()), leaf.clone()),
            ] {
                self.check(&Records::new(1, &program).bytes());
            }
        }
        for program in [
            repeat(1, stop()),
            repeat(2, stop()),
            repeat(3, stop()),
            repeat(65_535, stop()),
            repeat(0, stop()),
            repeat(0, heavy()),
            heavy(),
            repeat(65_535, heavy()),
            seq(repeat(0, heavy()), atom(1)),
            seq(repeat(0, repeat(65_535, heavy())), repeat(2, generate(0))),
            repeat(0, forever(nothing())),
            wrapped(62, nothing(), |_, t| repeat(65_535, t)),
            wrapped(63, nothing(), |_, t| repeat(65_535, t)),
            wrapped(64, nothing(), |_, t| repeat(65_535, t)),
            repeat(0, wrapped(62, atom(1), |_, t| repeat(65_535, t))),
            repeat(0, wrapped(63, atom(1), |_, t| repeat(65_535, t))),
            wrapped(20, stop(), |_, t| forever(t)),
            wrapped(15, stop(), |_, t| forever(t)),
            wrapped(16, stop(), |_, t| forever(t)),
            wrapped(14, stop(), |_, t| forever(t)),
            wrapped(5, generate(0), |_, t| repeat(5, t)),
            wrapped(6, generate(0), |_, t| repeat(4, t)),
            wrapped(8, seq(generate(0), stop()), |number, t| if number % 2 == 0 { forever(t) } else { repeat(7, t) }),
            repeat(63, seq(control(0, generate(0)), repeat(64, generate(0)))),
            seq(atom(1), when(event(0), seq(atom(1), atom(2)), atom(3))),
            until(event(0), seq(atom(1), atom(2)), atom(3)),
            forever(seq(repeat(3, atom(1)), seq(generate(0), stop()))),
        ] {
            self.check(&Records::new(1, &program).bytes());
        }
        // Sums that a number of 16, 32, 64 or 128 bits would take for small ones.
        for w in [65_534, 65_535, 65_536, 1 << 16 | 5, 1 << 31 | 5, 1 << 32 | 5, 1 << 63 | 5, 1 << 64 | 5, 1 << 127] {
            self.check(&Records::new(1, &weighing(w)).bytes());
        }
        for power in [16, 32, 64, 128] {
            let product = repeat(1 << 15, weighing(1 << (power - 15)));
            self.check(&Records::new(1, &product).bytes());
            self.check(&Records::new(1, &repeat(0, product)).bytes());
        }
        self.all_calls(&Records::new(1, &repeat(4_095, generate(0))).bytes());
        self.all_calls(&Records::new(1, &repeat(65_535, nothing())).bytes());
        // The greatest runs that a limit leaves.
        self.play(1, &repeat(65_534, nothing()), &[&[]]);
        self.play(1, &repeat(4_094, generate(0)), &[&[]]);
    }

    // Refusals 9 and 12: rooms one short, exact and longer; what lies beyond keeps its contents (B8, C10).
    fn rooms(&mut self) {
        let program = Records::new(1, &seq(atom(258), seq(stop(), seq(wait(event(0)), atom(772)))));
        let table = program.bytes();
        for length in [0, 1, 24, 27, 28, 29, 32, 40] {
            self.start(&table, vec![OTHER; length]);
            self.instant(&table, &vec![0; length], &[], 2);
            self.instant(&table, &vec![OTHER; length], &[9], 0);
        }
        let mut reached = vec![0; 28];
        let _ = instant::instant(&table, &mut reached, Events::none(), Values::default(), &mut [0; 2], &mut [0; 2]);
        for places in [0, 1, 2, 3, 5] {
            self.instant(&table, &[0; 28], &[], places);
            self.instant(&table, &reached, &[], places);
            self.instant(&table, &reached, &[0], places);
            self.instant(&Records::new(1, &nothing()).bytes(), &[0; 4], &[], places);
        }
        let greatest = filled(4096, 0, 1).bytes();
        self.start(&greatest, vec![OTHER; 16_383]);
        self.start(&greatest, vec![OTHER; 16_385]);
        self.instant(&greatest, &[0; 16_383], &[], 0);
        self.instant(&greatest, &[0; 16_384], &[], 0);
        let atoms = Records::new(1, &repeat(4_096, atom(3))).bytes();
        for places in [4_095, 4_096, 4_200, 4_201] {
            self.instant(&atoms, &[0; 8], &[], places);
        }
        self.start(&table, vec![OTHER; 17_000]);
        self.start(&table, vec![OTHER; 17_001]);
    }

    // Refusal 10: every kind in every phase over subtrees that are zero or not.
    fn states(&mut self) {
        // Each child is Seq(Stop, Stop): three nodes, so that not only its first is looked at.
        let child = || seq(stop(), stop());
        for program in [
            nothing(),
            stop(),
            atom(5),
            generate(0),
            wait(event(0)),
            control(0, child()),
            local(0, child()),
            forever(child()),
            repeat(2, child()),
            seq(child(), child()),
            par(child(), child()),
            when(event(0), child(), child()),
            until(event(0), child(), child()),
            choose(0, child(), child()),
            repeat_ext(0, 3, child()),
            freezable(0, child()),
        ] {
            let records = Records::new(1, &program);
            let nodes = records.nodes.len();
            let mut below: Vec<Vec<usize>> = vec![vec![]];
            // Ways of having something below: in the first or second child or in both, at its
            // first node, at its last node, or in a last byte.
            for part in [1, 4] {
                if part < nodes {
                    below.extend([vec![4 * part], vec![4 * part + 4], vec![4 * part + 8], vec![4 * part + 11]]);
                }
            }
            if nodes == 7 {
                below.push(vec![4, 16]);
            }
            for phase in 0..=4 {
                // An illegal phase is blamed whatever lies below.
                let ways = if phase == 4 { 1 } else { below.len() };
                for places in &below[..ways] {
                    let mut state = vec![0; 4 * nodes];
                    state[0] = phase;
                    for &place in places {
                        state[place] = if place % 4 == 0 { 3 } else { 1 };
                    }
                    self.go_on(&records, state, &[&[0]]);
                }
            }
            for (byte, value) in [(1, 1), (1, 2), (2, 1), (3, 1)] {
                for phase in [0, 1, 2, 3] {
                    let mut state = vec![0; 4 * nodes];
                    (state[0], state[byte]) = (phase, value);
                    self.go_on(&records, state, &[&[]]);
                }
            }
        }
    }

    // Refusal 10: every pair of Par's flags over every pair of children, and Repeat's counts (B1, B3).
    fn marks_and_counts(&mut self) {
        let both = Records::new(1, &par(seq(stop(), atom(1)), seq(stop(), atom(2))));
        for flags in (0..=10).chain([15, 16, 32, 128, 130]) {
            for (first, second) in [(0, 0), (3, 0), (0, 3), (3, 3), (2, 3), (3, 2)] {
                let mut state = vec![0; 28];
                (state[1], state[4], state[16]) = (flags, first, second);
                self.go_on(&both, state, &[&[]]);
            }
        }
        for times in [0, 1, 3, 256, 65_535] {
            let records = Records::new(1, &repeat(times, seq(stop(), atom(1))));
            for phase in [0, 1] {
                for count in [0, 1, 2, 3, 255, 256, 65_534, 65_535u16] {
                    let mut state = vec![0; 16];
                    state[0] = phase;
                    state[2..4].copy_from_slice(&count.to_be_bytes());
                    self.go_on(&records, state, &[&[]]);
                }
            }
        }
    }

    // Refusal 10 names the lowest of several blamed nodes (B2, B3, B7).
    fn lowest_blamed(&mut self) {
        let program = par(
            until(event(0), local(0, seq(wait(event(0)), stop())), control(0, stop())),
            seq(repeat(3, forever(stop())), when(event(0), stop(), par(stop(), stop()))),
        );
        let records = Records::new(1, &program);
        let nodes = records.nodes.len();
        // Each byte of the state in turn, then pairs of places with an Until in 1 or a Local in 1.
        for place in 0..4 * nodes {
            let mut state = vec![0; 4 * nodes];
            state[place] = 1;
            self.go_on(&records, state, &[&[]]);
        }
        for (low, high) in [(4, 8), (8, 12), (8, 36), (12, 20), (20, 28), (28, 44), (36, 40), (24, 48)] {
            for value in [1, 2, 3] {
                let mut state = vec![0; 4 * nodes];
                (state[low], state[high]) = (value, value);
                self.go_on(&records, state, &[&[0]]);
            }
        }
    }

    // Refusal 11: V - 1 and V, and the lowest of several.
    fn handed_events(&mut self) {
        for v in [1, 2, 128, 129, 200, 255, 256, 257, 512, 1_000, 1_023] {
            let table = Records::new(v, &wait(event(0))).bytes();
            for events in [&[v - 1][..], &[v], &[v, 1_023], &[0, v - 1, v], &[255], &[1_023]] {
                self.instant(&table, &[0; 4], events, 0);
            }
        }
        let table = Records::new(256, &par(wait(event(255)), generate(128))).bytes();
        for events in [&[255][..], &[0], &[127, 128], &[0, 1, 2, 3, 254, 255], &[]] {
            self.instant(&table, &[0; 12], events, 0);
        }
        let all: Vec<u16> = (0..1_024).collect();
        self.instant(&table, &[0; 12], &all[..256], 0);
        self.instant(&Records::new(255, &nothing()).bytes(), &[0; 4], &all[..256], 0);
        self.instant(&Records::new(1_024, &nothing()).bytes(), &[0; 4], &all, 0);
        self.instant(&Records::new(1_023, &nothing()).bytes(), &[0; 4], &all, 0);
    }

    // With several faults the lowest number wins (C11, A10, A12).
    fn several_faults(&mut self) {
        let program = seq(atom(1), wait(event(0)));
        let good = Records::new(1, &program);
        let table = good.bytes();
        for (state, events, places) in [
            (&[0; 11][..], &[1][..], 0),
            (&[9; 11], &[], 0),
            (&[9; 12], &[1], 0),
            (&[9; 12], &[], 0),
            (&[9; 12], &[1], 1),
            (&[0; 12], &[1], 0),
            (&[0; 12], &[1], 1),
            (&[0; 12], &[], 0),
        ] {
            self.instant(&table, state, events, places);
        }
        // Nodes and configurations both bad; too deep or endless or heavy while a record is bad.
        let mut both = good.clone();
        both.nodes[1].kind = 16;
        both.configs[0].kind = 4;
        self.check(&both.bytes());
        self.check(&trailer(&both, 3, 0));
        self.check(&trailer(&both, 2, 0));
        let endless = forever(repeat(65_535, repeat(65_535, atom(1))));
        for times in [62, 63, 64] {
            let mut records = Records::new(1, &seq(endless.clone(), wrapped(times, generate(0), |_, t| control(0, t))));
            self.check(&records.bytes());
            self.instant(&records.bytes(), &[], &[7], 0);
            let last = records.nodes.len() - 1;
            records.nodes[last].argument = 1;
            self.check(&records.bytes());
        }
        let heavy = repeat(65_535, repeat(65_535, atom(1)));
        self.check(&Records::new(1, &seq(heavy.clone(), forever(nothing()))).bytes());
        self.instant(&Records::new(1, &heavy).bytes(), &[], &[7], 0);
        self.start(&Records::new(1, &heavy).bytes(), vec![]);
    }

    // Lines that aren't calls, and some odd ones that are.
    fn odd_lines(&mut self) {
        let table = "00000000000100010000000100060000";
        for line in [
            "",
            " ",
            "-",
            "check",
            "check ",
            "check -",
            "check - ",
            "check  -",
            " check -",
            "check\t-",
            "check -\r",
            "check 0",
            "check 000",
            "check 0x",
            "check --",
            "CHECK -",
            "start - -",
            "start -",
            "start - - -",
            "instant - - -",
            "instant - - - -",
            "instant - - - - -",
            "instant - - - - - -",
            "instant - - - - - - -",
            "instants - - - - - -",
        ] {
            self.0.push(line.to_string());
        }
        let zeros = "00".repeat(16);
        self.0.push(format!("instant - - - {zeros} - -"));
        self.0.push(format!("instant - - - {zeros} -"));
        self.0.push(format!("instant - - - {zeros}"));
        self.0.push(format!("instant - - - {zeros} - -"));
        self.0.push(format!("instant {table} 00000000 {zeros} - -"));
        self.0.push(format!("instant {table} 00000000 - - {zeros}"));
        // Values: exactly 16 bytes, in lowercase.
        for values in
            ["-", "00", &zeros[1..], &zeros[2..], &zeros, &format!("{zeros}0"), &format!("{zeros}00"), &zeros.repeat(2)]
        {
            self.0.push(format!("instant {table} 00000000 - {values} -"));
        }
        for value in ["ff", "FF", "0g", "0 ", ", ", "0,"] {
            self.0.push(format!("instant {table} 00000000 - {}{value} -", &zeros[2..]));
        }
        for events in [
            "0", "00", "01", "0,0", "0,", ",0", "0,,0", "255", "256", "999", "1000", "1023", "1024", "1030", "9999",
            "10000", "0256", "+0", "-0", "--", "0;1", "0, 1", "3,1,2",
        ] {
            self.0.push(format!("instant {table} 00000000 {events} {zeros} - 0000"));
        }
        for row in ["0", "00", "000", "0000", "00000", "000000", "ABCD", "abcd", "00 00"] {
            self.0.push(format!("instant {table} 00000000 - {zeros} {row} 0000"));
        }
        for state in ["0", "000000", "00000000", "0000000", "0000000G", "0000000A"] {
            self.0.push(format!("instant {table} {state} - {zeros} - 0000"));
            self.0.push(format!("start {table} {state}"));
        }
        self.0.push(format!("check {}", table.replace("06", "0G")));
        self.0.push(format!("check {}", table.to_uppercase()));
        // Lines of 400,000 and 400,001 bytes: repeated events fill them.
        let many = ",10".repeat(133_316);
        self.0.push(format!("instant - - 100{many} {zeros} - -"));
        self.0.push(format!("instant - - 1000{many} {zeros} - -"));
    }

    // K1 to K12 of 01.
    fn bench_list(&mut self) {
        let p = || seq(wait(event(0)), seq(atom(7), generate(1)));
        let choice = || when(event(1), atom(1), atom(2));
        self.play(1, &nothing(), &[&[], &[]]);
        self.play(1, &stop(), &[&[], &[], &[]]);
        self.play(2, &par(p(), wait(event(1))), &[&[], &[0], &[1]]);
        self.play(2, &par(wait(event(1)), p()), &[&[0], &[]]);
        self.play(2, &par(choice(), generate(1)), &[&[], &[]]);
        self.play(2, &choice(), &[&[], &[], &[]]);
        self.play(2, &choice(), &[&[1], &[]]);
        self.play(1, &until(not(event(0)), stop(), atom(5)), &[&[0], &[], &[], &[]]);
        self.play(1, &until(not(event(0)), stop(), atom(5)), &[&[], &[], &[]]);
        self.play(1, &forever(seq(wait(event(0)), stop())), &[&[], &[0], &[], &[0], &[0]]);
        self.play(1, &local(0, par(wait(event(0)), generate(0))), &[&[], &[]]);
        self.play(1, &local(0, par(wait(event(0)), generate(0))), &[&[0]]);
        for count in [0, 1, 3] {
            self.play(1, &repeat(count, atom(4)), &[&[], &[]]);
        }
        self.play(2, &control(0, generate(1)), &[&[], &[0], &[]]);
    }

    // Passes and moves (C1 to C3).
    fn passes(&mut self) {
        self.play(2, &par(wait(event(1)), generate(0)), &[&[0], &[]]);
        self.play(2, &par(wait(event(1)), generate(0)), &[&[], &[1]]);
        self.play(2, &par(wait(event(1)), local(0, generate(0))), &[&[]]);
        self.play(1, &par(wait(event(0)), stop()), &[&[], &[0]]);
        // A chain against the order of a pass: one more pass for each link.
        let mut chain = wait(event(9));
        for s in 0..8 {
            chain = par(chain, seq(wait(event(s)), seq(atom(s), generate(s + 1))));
        }
        self.play(10, &par(chain.clone(), generate(0)), &[&[], &[9]]);
        self.play(10, &par(generate(0), chain), &[&[], &[9]]);
        let meeting = local(0, par(wait(event(0)), generate(0)));
        self.play(2, &par(repeat(9, meeting.clone()), wait(event(1))), &[&[], &[1]]);
        self.play(2, &par(repeat(4_094, meeting), wait(event(1))), &[&[]]);
    }

    // Every pair of small branches in Par and Seq.
    fn pairs(&mut self) {
        let small = || {
            vec![
                nothing(),
                stop(),
                atom(1),
                generate(0),
                wait(event(0)),
                wait(not(event(0))),
                seq(stop(), atom(2)),
                seq(wait(event(1)), generate(0)),
                forever(seq(atom(3), stop())),
            ]
        };
        for t in small() {
            for u in small() {
                self.play(2, &par(t.clone(), u.clone()), &[&[1], &[]]);
                self.play(2, &par(t.clone(), u.clone()), &[&[]]);
            }
        }
        for t in small() {
            for u in [nothing(), stop(), atom(4), wait(event(0)), seq(stop(), generate(1))] {
                self.play(2, &seq(t.clone(), u), &[&[], &[0]]);
            }
        }
    }

    // When, Await, Until and Control over each kind of condition, before and after the end (rules 17 to 34).
    fn tests(&mut self) {
        let conds: Vec<Cond> = vec![
            event(0),
            not(event(0)),
            and(event(0), event(1)),
            or(event(0), event(1)),
            and(event(0), not(event(1))),
            or(not(event(0)), event(1)),
            and(not(event(0)), not(event(1))),
            not(or(event(0), not(event(1)))),
        ];
        for c in &conds {
            for program in [
                wait(c.clone()),
                when(c.clone(), atom(1), atom(2)),
                when(c.clone(), nothing(), stop()),
                when(c.clone(), seq(stop(), atom(1)), generate(1)),
                until(c.clone(), stop(), atom(3)),
                until(c.clone(), seq(stop(), stop()), stop()),
                par(until(c.clone(), seq(atom(1), wait(event(2))), generate(2)), seq(wait(event(0)), generate(1))),
                par(when(c.clone(), generate(2), atom(2)), seq(wait(event(1)), generate(0))),
            ] {
                for events in [&[][..], &[0], &[1]] {
                    self.play(3, &program, &[events, &[]]);
                }
            }
        }
        // A body that ends, a handler with a body of its own, an Until* first met after the end (C6).
        for program in [
            until(event(0), atom(1), atom(2)),
            until(event(0), wait(event(1)), atom(2)),
            until(event(0), wait(event(1)), until(event(1), stop(), atom(3))),
            until(not(event(1)), wait(event(0)), nothing()),
            until(event(0), par(stop(), wait(event(1))), seq(stop(), atom(2))),
            par(until(event(1), stop(), atom(2)), seq(wait(event(0)), generate(1))),
            par(control(1, seq(atom(1), stop())), seq(wait(event(0)), generate(1))),
            control(0, control(1, par(atom(1), generate(2)))),
            control(0, forever(seq(atom(1), stop()))),
            par(control(0, wait(event(1))), seq(wait(event(0)), generate(1))),
        ] {
            for events in [&[][..], &[0], &[1], &[0, 1]] {
                self.play(3, &program, &[events, &[0], &[0, 1]]);
            }
        }
    }

    // Local: what goes in, what comes out, what is kept between passes and dropped between instants (C2, C7).
    fn scopes(&mut self) {
        for program in [
            local(0, generate(0)),
            local(0, wait(event(0))),
            local(0, seq(generate(0), wait(event(0)))),
            local(0, seq(generate(0), seq(stop(), wait(event(0))))),
            local(0, par(seq(wait(event(0)), atom(1)), seq(wait(event(1)), generate(0)))),
            local(0, local(0, par(wait(event(0)), generate(0)))),
            local(0, par(wait(event(0)), local(0, generate(0)))),
            local(0, par(local(0, seq(wait(event(0)), atom(1))), generate(0))),
            par(wait(event(0)), local(0, seq(generate(0), wait(event(1))))),
            par(local(0, seq(generate(0), wait(event(1)))), seq(wait(event(1)), atom(1))),
            par(local(0, seq(generate(0), seq(wait(event(1)), wait(event(0))))), generate(1)),
            local(0, until(event(0), seq(generate(0), stop()), atom(1))),
            until(event(0), local(0, seq(generate(0), stop())), atom(1)),
            local(1, control(1, atom(1))),
            local(1, par(control(1, seq(atom(1), stop())), generate(1))),
            local(0, generate(1)),
            local(0, forever(seq(when(event(0), atom(1), atom(2)), seq(generate(0), stop())))),
            local(0, par(local(1, par(wait(event(1)), seq(wait(event(0)), generate(1)))), generate(0))),
        ] {
            for events in [&[][..], &[0], &[1], &[0, 1]] {
                self.play(2, &program, &[events, &[1], &[]]);
            }
        }
    }

    // Loop and Repeat over stopping and ending bodies, restarts and what they clear (B5 to B7, B9).
    fn nests(&mut self) {
        let body = || par(seq(wait(event(0)), stop()), when(event(1), atom(1), seq(atom(2), stop())));
        for program in [
            forever(seq(body(), stop())),
            forever(par(body(), stop())),
            repeat(3, body()),
            repeat(2, seq(body(), atom(3))),
            repeat(2, repeat(2, seq(atom(1), stop()))),
            forever(repeat(2, seq(stop(), atom(1)))),
            forever(until(event(0), forever(seq(atom(1), stop())), stop())),
            seq(until(event(0), forever(seq(atom(1), stop())), atom(2)), atom(3)),
            seq(when(event(0), stop(), nothing()), atom(1)),
            repeat(3, seq(when(event(0), stop(), wait(event(1))), atom(1))),
            par(repeat(3, seq(stop(), generate(0))), forever(seq(wait(event(0)), seq(atom(1), stop())))),
            par(forever(seq(wait(event(0)), seq(atom(1), stop()))), repeat(3, seq(stop(), generate(0)))),
            par(par(stop(), seq(stop(), stop())), par(nothing(), seq(stop(), seq(stop(), atom(1))))),
            seq(par(stop(), nothing()), par(atom(1), stop())),
            control(0, repeat(3, seq(atom(1), stop()))),
            forever(control(0, until(event(1), seq(stop(), stop()), seq(stop(), atom(1))))),
        ] {
            self.play(2, &program, &[&[], &[0], &[1], &[0, 1], &[0], &[]]);
        }
        // States at rest that no instant from fresh leaves (B4): Nothing under a suspended flag, in a
        // Seq's first, as a rest of Loop or Repeat; a rest all zero.
        let unreached = |program: &Draft, cells: &[(usize, u8)]| {
            let records = Records::new(2, program);
            let mut state = vec![0; 4 * records.nodes.len()];
            for &(place, value) in cells {
                state[place] = value;
            }
            (records, state)
        };
        let looped = forever(seq(atom(1), stop()));
        let repeated = repeat(3, seq(atom(1), stop()));
        for (program, cells) in [
            (par(atom(1), atom(2)), &[(4, 3)][..]),
            (par(atom(1), atom(2)), &[(8, 3)]),
            (par(atom(1), atom(2)), &[(4, 3), (8, 3)]),
            (par(stop(), stop()), &[(1, 2), (4, 3), (8, 3)]),
            (seq(atom(1), atom(2)), &[(4, 3)]),
            (seq(atom(1), atom(2)), &[(0, 2), (8, 3)]),
            (looped.clone(), &[(0, 1)]),
            (looped.clone(), &[(0, 1), (4, 3)]),
            (looped.clone(), &[(0, 1), (4, 2), (12, 3)]),
            (looped, &[(0, 1), (4, 2)]),
            (repeated.clone(), &[(0, 1)]),
            (repeated.clone(), &[(0, 1), (4, 3)]),
            (repeated.clone(), &[(0, 1), (3, 2), (4, 3)]),
            (repeated, &[(0, 1), (3, 1), (4, 2), (12, 3)]),
            (until(event(0), atom(1), atom(2)), &[(4, 3)]),
            (until(event(0), atom(1), atom(2)), &[(0, 2), (8, 3)]),
            (when(event(0), atom(1), atom(2)), &[(0, 1), (4, 3)]),
            (when(event(0), atom(1), atom(2)), &[(0, 2)]),
            (control(0, atom(1)), &[(4, 3)]),
            (local(0, atom(1)), &[(4, 3)]),
        ] {
            let (records, state) = unreached(&program, cells);
            self.go_on(&records, state, &[&[0], &[], &[0]]);
        }
    }
}
