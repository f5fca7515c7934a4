//! Tests typed in from the documents: the bench list, the readings taken, the listing, the written form, and laws
//! over random calls.

mod bench;
mod configurations;
mod early;
mod events;
mod laws;
mod listings;
mod loops;
mod orders;
mod parked;
mod readings;
mod rules;
mod text_laws;
mod texts;
mod values;
mod waits;

use crate::env::{Events, Values};
use crate::figures::Figures;
use crate::instant::{self, Report, Wait};
use crate::make::draft::{Draft, Records};
use crate::table::Refusal;

/// A table under way, with an atom row, a state and a store of its own.
struct Play {
    table: Vec<u8>,
    state: Vec<u8>,
    /// Begun empty with 64 bytes of room.
    store: Vec<u8>,
    atoms: Vec<u16>,
    /// What the last instant waited for.
    waits: Option<Wait>,
}

impl Play {
    /// Starts a program over V events.
    fn new(events: u16, program: Draft) -> Play {
        Play::of(&Records::new(events, &program))
    }

    fn of(records: &Records) -> Play {
        let table = records.bytes();
        let mut state = vec![0xee; 4 * records.nodes.len()];
        assert_eq!(instant::start(&table, &mut state), Ok(()));
        Play { table, state, store: vec![0; 66], atoms: vec![], waits: None }
    }

    /// Goes on from a state in which each of these bytes stands.
    fn from(events: u16, program: Draft, cells: &[(usize, u8)]) -> Play {
        let mut play = Play::new(events, program);
        for &(place, value) in cells {
            play.state[place] = value;
        }
        play
    }

    fn call(&mut self, events: &[u16]) -> Result<Report, Refusal> {
        self.ask(events, Values::default())
    }

    /// The same, with values handed in.
    fn ask(&mut self, events: &[u16], values: Values) -> Result<Report, Refusal> {
        let mut row = vec![0; 4096];
        let (state, store) = (&mut self.state, &mut self.store);
        let answer = instant::instant(&self.table, state, set(events), values, &mut row, store);
        self.atoms = row[..answer.as_ref().map_or(0, |report| report.atoms)].to_vec();
        self.waits = answer.as_ref().map_or(None, |report| report.waits);
        answer
    }

    /// Runs an instant that must take these passes, answer this flag, and leave these events and atoms.
    fn instant(&mut self, handed: &[u16], passes: usize, answer: &str, events: &[u16], atoms: &[u16]) {
        let report = self.call(handed).expect("no refusal");
        let flag = if report.finished { "TERM" } else { "STOP" };
        let present: Vec<u16> = report.events.rising().collect();
        assert_eq!((report.passes, flag, &present[..], &self.atoms[..]), (passes, answer, events, atoms));
    }

    /// The phase of each node.
    fn phases(&self) -> Vec<u8> {
        self.state.iter().step_by(4).copied().collect()
    }
}

fn set(events: &[u16]) -> Events {
    events.iter().copied().collect()
}

/// Checks a program over V events.
fn check(events: u16, program: Draft) -> Result<Figures, Refusal> {
    instant::check(&Records::new(events, &program).bytes())
}

/// The figures of a program that parks nothing.
fn figures(g: u64, a: u64, w: u64) -> Result<Figures, Refusal> {
    Ok(Figures { g, a, w, f: 0 })
}

fn refused<T>(number: u8, index: usize) -> Result<T, Refusal> {
    Err(Refusal::new(number, index))
}
