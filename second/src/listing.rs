//! The listing program: one instant for each line of input, one line of output for each; and the program for people,
//! which says under each instant whose end was declared what the program waits for (L1).

use crate::env::{Events, Values};
use crate::instant::{self, Wait};
use crate::spell;
use crate::state;
use crate::table::{Node, Refusal};
use crate::words;
use std::io::{BufRead, Result, Write};

/// The store that is lent, begun empty (L8).
const STORE_BYTES: usize = 32_768;

/// A line above this many bytes is bad, its newline aside.
const LINE_BYTES: usize = 4096;

/// Plays a table over an input.
pub fn play(table: &[u8], input: impl BufRead, out: &mut impl Write) -> Result<()> {
    each_instant(table, input, out, |_, _, _| Ok(()))
}

/// The same, with a line more under each instant that waits.
pub fn explain(table: &[u8], input: impl BufRead, out: &mut impl Write) -> Result<()> {
    each_instant(table, input, out, |out, root, waits| match waits {
        Some(Wait { node, event }) => {
            writeln!(out, "waits at node {node} in {} for event {event}", spell::own_part(state::node_at(root, node)))
        }
        None => Ok(()),
    })
}

/// Plays a table over an input, all values being 0 (L14); what is told of an instant's wait, the program at hand, goes under its line.
fn each_instant<W: Write>(
    table: &[u8],
    input: impl BufRead,
    out: &mut W,
    mut tell: impl FnMut(&mut W, &Node, Option<Wait>) -> Result<()>,
) -> Result<()> {
    // Room enough for any table: 4,096 nodes and as many atoms.
    let mut state = [0; 4 * 4096];
    let mut row = [0; 4096];
    let mut store = [0; STORE_BYTES];
    let program = match instant::start(table, &mut state).and_then(|()| instant::load(table)) {
        Ok((program, _)) => program,
        Err(Refusal { number, index }) => return writeln!(out, "table refused {number} {index}"),
    };
    let mut number = 0u64;
    words::each_line(input, |line| {
        number += 1;
        let Some(events) = read(line) else {
            return writeln!(out, "{number} bad-line");
        };
        match instant::instant(table, &mut state, events, Values::default(), &mut row, &mut store) {
            Ok(report) => {
                writeln!(
                    out,
                    "{number} {} {} {} {}",
                    report.passes,
                    if report.finished { "TERM" } else { "STOP" },
                    words::list(report.events.rising()),
                    words::list(&row[..report.atoms])
                )?;
                tell(out, &program.root, report.waits)
            }
            Err(Refusal { number: refusal, index }) => writeln!(out, "{number} refused {refusal} {index}"),
        }
    })
}

/// The events of a line: event numbers with one space between; an empty line has none.
fn read(line: &[u8]) -> Option<Events> {
    if line.len() > LINE_BYTES {
        return None;
    }
    if line.is_empty() {
        return Some(Events::none());
    }
    line.split(|&byte| byte == b' ').map(words::event).collect()
}
