//! The three calls of 01: check a table, start, and run one instant, which parks into a store (L8).

use crate::env::{Env, Events, Values};
use crate::figures::{self, Figures};
use crate::rules::{self, Course, Frozen, Unknown};
use crate::state;
use crate::store::{self, Piece};
use crate::table::{self, Program, Refusal};
use crate::term::{Flag, Term};

/// What an instant answers when it isn't refused.
#[derive(Clone, Debug, PartialEq, Eq)]
pub struct Report {
    pub events: Events,
    pub atoms: usize,
    pub finished: bool,
    pub passes: usize,
    /// The first suspended test of the last pass before the end was declared, and what it waits for (L1).
    pub waits: Option<Wait>,
}

/// The node of a suspended test, and the lowest event that it mentions and doesn't find present.
#[derive(Clone, Copy, Debug, PartialEq, Eq)]
pub struct Wait {
    pub node: usize,
    pub event: u16,
}

/// Checks a table: refusals 1 to 8, or its figures.
pub fn check(table: &[u8]) -> Result<Figures, Refusal> {
    load(table).map(|(_, figures)| figures)
}

/// Makes the state fresh: refusals 1 to 9.
pub fn start(table: &[u8], state: &mut [u8]) -> Result<(), Refusal> {
    let (program, _) = load(table)?;
    let room = room(&program, state)?;
    room.fill(0);
    Ok(())
}

/// Runs one instant: all refusals. The first branch of a Par runs first.
pub fn instant(
    table: &[u8],
    state: &mut [u8],
    handed: Events,
    values: Values,
    row: &mut [u16],
    store: &mut [u8],
) -> Result<Report, Refusal> {
    in_any_order(table, state, handed, values, row, store, &mut || false)
}

/// Runs one instant in which each Par asks, in each pass where both branches are suspended, which one runs first (L6).
pub fn in_any_order(
    table: &[u8],
    state: &mut [u8],
    handed: Events,
    values: Values,
    row: &mut [u16],
    store: &mut [u8],
    second_first: &mut dyn FnMut() -> bool,
) -> Result<Report, Refusal> {
    let (program, figures) = load(table)?;
    let room = room(&program, state)?;
    if let Some(index) = state::blamed(&program.root, room) {
        return Err(Refusal::new(10, index));
    }
    if let Some(event) = handed.rising().map(usize::from).find(|&event| event >= program.events) {
        return Err(Refusal::new(11, event));
    }
    if (row.len() as u64) < figures.a {
        return Err(Refusal::new(12, 0));
    }
    let mut pieces = store::read(&program.root, store)?;
    store::has_room(store, &pieces, figures.f)?;
    let mut course = Course::new(values, second_first);
    let (answer, residual, report) = passes(state::read(&program.root, room), handed, &mut course);
    state::write(&program.root, answer, &residual, room);
    row[..report.atoms].copy_from_slice(&course.actions);
    pieces.extend(course.frozen.iter().map(|frozen| parked(&program, frozen)));
    store::write(&pieces, store);
    Ok(report)
}

/// The piece that a frozen instruction becomes.
fn parked(program: &Program, frozen: &Frozen) -> Piece {
    let body = state::node_at(&program.root, frozen.body);
    Piece { event: frozen.event, body: body.at, state: state::of_residual(body, &frozen.rest) }
}

/// A table that passes 1 to 8, with its figures.
pub fn load(table: &[u8]) -> Result<(Program, Figures), Refusal> {
    let program = table::read(table)?;
    let figures = figures::load(&program.root)?;
    Ok((program, figures))
}

/// The 4N bytes of the state room that the program uses, or refusal 9.
fn room<'a>(program: &Program, state: &'a mut [u8]) -> Result<&'a mut [u8], Refusal> {
    state.get_mut(..4 * program.root.size).ok_or(Refusal::new(9, 0))
}

/// Instant(t) of 000, 5.2: the answer, the residual and the report.
pub fn passes(t: Term, handed: Events, course: &mut Course) -> (Flag, Term, Report) {
    let mut now = t;
    let mut e = Env { present: handed, eoi: false, moved: false };
    let mut passes = 0;
    let mut waits = None;
    loop {
        course.unknown.clear();
        let (answer, rest, after) = rules::run(&now, e, course);
        passes += 1;
        e = match (answer, after.moved) {
            // (47)
            (Flag::Stop | Flag::Term, _) => {
                let (events, atoms) = (after.present, course.actions.len());
                return (answer, rest, Report { events, atoms, finished: answer == Flag::Term, passes, waits });
            }
            // (48)
            (Flag::Susp, false) => {
                waits = first_wait(&course.unknown);
                Env { eoi: true, ..after }
            }
            // (49)
            (Flag::Susp, true) => Env { moved: false, ..after },
        };
        now = rest;
    }
}

/// The suspended test of the lowest node. What is unknown mentions an event that isn't present.
fn first_wait(unknown: &[Unknown]) -> Option<Wait> {
    let first = unknown.iter().min_by_key(|test| test.at)?;
    let event = first.test.missing(first.seen).expect("an event that isn't present");
    Some(Wait { node: first.at, event })
}
