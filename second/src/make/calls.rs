//! Random call lines: conversations of instants, damaged tables and states, odd rooms, bad lines.

use super::draft::Records;
use super::random::Random;
use super::{grow, harm, limits, rest, stores};
use crate::env::{Events, Values, EVENTS};
use crate::figures::Figures;
use crate::instant;
use crate::lines::{print, Call};
use crate::state;
use crate::store;
use crate::table::{self, Program};
use crate::words::hex;

/// As many lines as asked for, the same for the same seed.
pub fn lines(cases: usize, seed: u64) -> impl Iterator<Item = String> {
    of(Sort { weights: [6, 12, 4, 7, 63, 3, 3, 4], program: grow::program, limit: limits::near }, cases, seed)
}

/// What random calls are made from.
pub struct Sort {
    /// How often each way of `Maker::line` is taken.
    pub weights: [usize; 8],
    pub program: fn(&mut Random) -> Records,
    /// Tables at a limit.
    pub limit: fn(&mut Random) -> Records,
}

/// As many lines of a sort as asked for, the same for the same seed.
pub fn of(sort: Sort, cases: usize, seed: u64) -> impl Iterator<Item = String> {
    let mut maker = Maker { sort, r: Random::new(seed), talk: None };
    (0..cases).map(move |_| maker.line())
}

struct Maker {
    sort: Sort,
    r: Random,
    talk: Option<Talk>,
}

/// A table under way, the state it has come to, and what it has parked.
struct Talk {
    table: Vec<u8>,
    program: Program,
    figures: Figures,
    state: Vec<u8>,
    store: Vec<u8>,
}

impl Talk {
    /// Goes on with what is left in a store, unless that is one of the greatest length.
    fn with(self, left: Vec<u8>) -> Talk {
        if left.len() < 60_000 {
            Talk { store: left, ..self }
        } else {
            self
        }
    }
}

impl Maker {
    fn line(&mut self) -> String {
        match self.r.weigh(&self.sort.weights) {
            0 => print(&Call::Check { table: self.program().bytes() }),
            1 => print(&Call::Check { table: self.damaged_table() }),
            2 => print(&Call::Check { table: (self.sort.limit)(&mut self.r).bytes() }),
            3 => self.start(),
            4 => print(&self.instant()),
            5 => self.damaged_instant(),
            6 => self.bad_line(),
            _ => print(&self.take()),
        }
    }

    fn program(&mut self) -> Records {
        (self.sort.program)(&mut self.r)
    }

    fn damaged_table(&mut self) -> Vec<u8> {
        let records = self.program();
        harm::damaged(&mut self.r, records)
    }

    fn start(&mut self) -> String {
        let table = if self.r.chance(80) { self.program().bytes() } else { self.damaged_table() };
        let nodes = table::read(&table).map_or(3, |program| program.root.size);
        let length = match self.r.weigh(&[40, 30, 20, 10]) {
            0 => 4 * nodes,
            1 => 4 * nodes + self.r.between(1, 9),
            2 => 4 * nodes - 1,
            _ => self.r.below(4 * nodes),
        };
        let state = self.r.bytes(length);
        print(&Call::Start { table, state })
    }

    /// An instant of a good table: mostly the next one of a conversation.
    fn instant(&mut self) -> Call {
        let mut talk = match self.talk.take() {
            Some(talk) if self.r.chance(80) => talk,
            _ => self.begin(),
        };
        let mut state = match self.r.weigh(&[55, 33, 12]) {
            0 => talk.state.clone(),
            1 => rest::state(&mut self.r, &talk.program.root),
            _ => {
                let mut state = rest::state(&mut self.r, &talk.program.root);
                if self.r.chance(20) {
                    rest::recount(&mut self.r, &talk.program.root, &mut state);
                } else {
                    rest::damage(&mut self.r, &mut state, talk.program.root.size);
                }
                state
            }
        };
        match self.r.weigh(&[70, 26, 4]) {
            0 => {}
            1 => {
                let more = self.r.between(1, 6);
                state.extend(self.r.bytes(more));
            }
            _ => state.truncate(self.r.below(state.len())),
        }
        let events = self.events(talk.program.events);
        let values = self.values();
        let places = match self.r.weigh(&[50, 46, 4]) {
            0 => talk.figures.a as usize,
            1 => talk.figures.a as usize + self.r.between(1, 3),
            _ => (talk.figures.a as usize).saturating_sub(1),
        };
        let row: Vec<u16> = (0..places).map(|_| self.r.below(65_536) as u16).collect();

        let store = self.store(&talk);

        // The conversation goes on from what the instant leaves, unless it was refused or is over; where it has parked something, that can
        // still be taken.
        let (mut after, mut left) = (state.clone(), store.clone());
        let report = instant::instant(&talk.table, &mut after, events, values, &mut row.clone(), &mut left);
        let table = talk.table.clone();
        if report.is_ok_and(|report| !report.finished || left != store || self.r.chance(20)) {
            after.truncate(talk.state.len());
            talk.state = after;
            self.talk = Some(talk.with(left));
        }
        Call::Instant { table, state, events, values, row, store }
    }

    /// A store to lend: mostly what the conversation has come to.
    fn store(&mut self, talk: &Talk) -> Vec<u8> {
        let root = &talk.program.root;
        let most = talk.figures.f as usize;
        match self.r.weigh(&[420, 102, 54, 23, 1]) {
            0 => talk.store.clone(),
            1 => {
                let pieces = stores::pieces(&mut self.r, root);
                let free = stores::free(&mut self.r, most);
                stores::with_free(&mut self.r, &pieces, free)
            }
            2 => stores::damaged(&mut self.r, root, most),
            // Hardly a store: at most a byte more than the count.
            3 => {
                let mut store = vec![0; self.r.below(4)];
                if self.r.chance(20) {
                    store.fill(1);
                }
                store
            }
            _ => stores::nearly_full(&mut self.r, root, most).unwrap_or(talk.store.clone()),
        }
    }

    /// A piece taken, out of what the conversation has parked or out of another store; now and then its table is what runs on.
    fn take(&mut self) -> Call {
        let talk = match self.talk.take() {
            Some(talk) => talk,
            None => self.begin(),
        };
        let root = &talk.program.root;
        let mut store = talk.store.clone();
        let known = store::read(root, &store).unwrap_or_default();
        if known.is_empty() || self.r.chance(35) {
            store = self.store(&talk);
            if store == talk.store {
                let pieces = stores::pieces(&mut self.r, root);
                let free = self.r.below(9);
                store = stores::with_free(&mut self.r, &pieces, free);
            }
        }
        let pieces = store::read(root, &store).unwrap_or_default();
        let event = match pieces.len() {
            0 => self.r.below(talk.program.events.min(4)) as u16,
            many if self.r.chance(85) => pieces[self.r.below(many)].event,
            _ => self.r.below(EVENTS) as u16,
        };
        let newest = pieces.iter().rev().find(|piece| piece.event == event);
        let part = newest.map_or(vec![0; 20], |piece| table::part(&talk.table, state::node_at(root, piece.body)));
        let state_bytes = newest.map_or(8, |piece| piece.state.len());
        let (table_room, state_room) = (self.room(part.len()), self.room(state_bytes));

        let (mut left, mut taken_table, mut taken_state) = (store.clone(), table_room.clone(), state_room.clone());
        let taken = store::take(&talk.table, &mut left, event, &mut taken_table, &mut taken_state);
        let table = talk.table.clone();
        self.talk = match taken {
            Ok(taken) if self.r.chance(50) => {
                taken_table.truncate(taken.table);
                taken_state.truncate(taken.state);
                let (program, figures) = instant::load(&taken_table).expect("a taken table is accepted");
                let store = stores::with_free(&mut self.r, &[], 2 * figures.f as usize);
                Some(Talk { table: taken_table, program, figures, state: taken_state, store })
            }
            Ok(_) => Some(talk.with(left)),
            Err(_) => Some(talk),
        };
        Call::Take { table, store, event, table_room, state_room }
    }

    /// A room for so many bytes: exact, longer, seldom too short, with anything in it.
    fn room(&mut self, needed: usize) -> Vec<u8> {
        let length = match self.r.weigh(&[50, 38, 8, 4]) {
            0 => needed,
            1 => needed + self.r.between(1, 9),
            2 => needed - 1,
            _ => self.r.below(needed),
        };
        self.r.bytes(length)
    }

    /// A conversation over a random program that is accepted, writes few atoms and parks few bytes.
    fn begin(&mut self) -> Talk {
        loop {
            let table = self.program().bytes();
            if let (Ok(program), Ok(figures)) = (table::read(&table), instant::check(&table)) {
                if figures.a <= 60 && figures.f <= 300 || self.r.chance(2) {
                    let state = vec![0; 4 * program.root.size];
                    let free = stores::free(&mut self.r, figures.f as usize);
                    let store = stores::with_free(&mut self.r, &[], free);
                    return Talk { table, program, figures, state, store };
                }
            }
        }
    }

    /// Events to hand in, seldom one at or above V.
    fn events(&mut self, v: usize) -> Events {
        let likely = *self.r.pick(&[0, 15, 35, 60]);
        let mut events: Events = (0..v.min(8) as u16).filter(|_| self.r.chance(likely)).collect();
        if v > 8 && self.r.chance(50) {
            events = events.with(self.r.below(v) as u16);
        }
        if v < EVENTS && self.r.chance(4) {
            events = events.with(v as u16);
        }
        if self.r.chance(2) {
            events = events.with(self.r.below(EVENTS) as u16);
        }
        events
    }

    /// Values to hand in: 0 and 1 often, else small or any, up to 255.
    fn values(&mut self) -> Values {
        let mut values = Values::default();
        let weights = *self.r.pick(&[[100, 0, 0, 0, 0], [40, 30, 20, 5, 5], [10, 30, 50, 5, 5], [10, 10, 10, 50, 20]]);
        for value in &mut values {
            *value = match self.r.weigh(&weights) {
                0 => 0,
                1 => 1,
                2 => self.r.between(2, 5) as u8,
                3 => self.r.byte(),
                _ => 255,
            };
        }
        values
    }

    /// An instant of a damaged table, in rooms that would do for the sound one.
    fn damaged_instant(&mut self) -> String {
        let records = self.program();
        let state = vec![0; 4 * records.nodes.len()];
        let row = vec![0; self.r.below(30)];
        let events = self.events(usize::from(records.events));
        let values = self.values();
        let free = self.r.below(30);
        let store = stores::with_free(&mut self.r, &[], free);
        print(&Call::Instant { table: harm::damaged(&mut self.r, records), state, events, values, row, store })
    }

    /// A line that was good before one change; a few changes leave it good.
    fn bad_line(&mut self) -> String {
        let line = if self.r.chance(85) { print(&self.instant()) } else { print(&self.take()) };
        let mut words: Vec<String> = line.split(' ').map(str::to_string).collect();
        let place = self.r.below(words.len());
        match self.r.below(11) {
            10 => {
                let length = *self.r.pick(&[0, 1, 15, 16, 17, 32]);
                words[4] = hex(&self.r.bytes(length));
            }
            8 => {
                words[3] =
                    self.r.pick(&["1024", "00", "1,", ",1", "1,,2", "01", "+1", "1;2", "0,0", "3,1,3"]).to_string()
            }
            9 => words[0] = self.r.pick(&["check", "start", "Instant", "run", "instants"]).to_string(),
            way => harm::spoil_word(&mut words, place, way),
        }
        words.join(" ")
    }
}
