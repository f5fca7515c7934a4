//! The second program: answers the lines of the calls program, plays the listing program, with what is waited for or without,
//! and makes random and edge cases for all.

mod config;
mod env;
mod figures;
mod grammar;
mod instant;
mod layout;
mod lines;
mod listing;
mod make;
mod programs;
mod rules;
mod spell;
mod state;
mod store;
mod table;
mod term;
mod text;
mod ways;
mod words;

#[cfg(test)]
mod tests;

use make::random::Random;
use std::io::{BufWriter, Read, Result, Write};
use std::path::Path;
use std::process::ExitCode;

const USAGE: &str =
    "usage: second calls | orders SEED | run | why | check | read | print | take | make edges | make text-edges \
                     | make calls|loops|orders|parked|texts|values|waits CASES SEED | make listing SEED DIR";

/// The files that hold the table and the store, in the current folder, and those that a taken piece goes to.
const TABLE: &str = "table.bin";
const STORE: &str = "store.bin";
const PIECE_TABLE: &str = "piece-table.bin";
const PIECE_STATE: &str = "piece-state.bin";

fn main() -> ExitCode {
    let arguments: Vec<String> = std::env::args().skip(1).collect();
    let words: Vec<&str> = arguments.iter().map(String::as_str).collect();
    let mut out = BufWriter::new(std::io::stdout().lock());
    let done = match words[..] {
        ["calls"] => answer_calls(&mut out, lines::answer),
        ["orders", seed] => match seed.parse() {
            Ok(seed) => {
                let mut r = Random::new(seed);
                answer_calls(&mut out, |line| lines::in_any_order(line, &mut || r.chance(50)))
            }
            Err(_) => return misused(),
        },
        ["run"] => listing::play(&read_table(Path::new(TABLE)), std::io::stdin().lock(), &mut out),
        ["why"] => listing::explain(&read_table(Path::new(TABLE)), std::io::stdin().lock(), &mut out),
        ["check"] => out.write_all(programs::check(&read_table(Path::new(TABLE))).as_bytes()),
        ["print"] => out.write_all(&programs::print(&read_table(Path::new(TABLE)))),
        ["read"] => read_text(&mut out),
        ["take"] => take_piece(&mut out),
        ["make", "edges"] => print_lines(&mut out, make::edges::lines()),
        ["make", "text-edges"] => print_lines(&mut out, make::text_edges::lines()),
        ["make", "listing", seed, dir] => match seed.parse() {
            Ok(seed) => make::listings::write(seed, Path::new(dir)),
            Err(_) => return misused(),
        },
        ["make", sort, cases, seed] => match random_lines(sort, cases, seed) {
            Some(lines) => print_lines(&mut out, lines),
            None => return misused(),
        },
        _ => return misused(),
    };
    match done.and_then(|()| out.flush()) {
        Ok(()) => ExitCode::SUCCESS,
        Err(fault) => {
            eprintln!("second: {fault}");
            ExitCode::FAILURE
        }
    }
}

fn misused() -> ExitCode {
    eprintln!("{USAGE}");
    ExitCode::from(2)
}

/// One answer for each line, handed on before the next line is waited for.
fn answer_calls(out: &mut impl Write, mut answer: impl FnMut(&[u8]) -> String) -> Result<()> {
    words::each_line(std::io::stdin().lock(), |line| {
        writeln!(out, "{}", answer(line))?;
        out.flush()
    })
}

fn random_lines(sort: &str, cases: &str, seed: &str) -> Option<Box<dyn Iterator<Item = String>>> {
    make::lines(sort, cases.parse().ok()?, seed.parse().ok()?)
}

fn print_lines(out: &mut impl Write, lines: impl IntoIterator<Item = String>) -> Result<()> {
    lines.into_iter().try_for_each(|line| writeln!(out, "{line}"))
}

/// Writes the table of the text that is the input, or tells why there is none.
fn read_text(out: &mut impl Write) -> Result<()> {
    let mut text = Vec::new();
    std::io::stdin().lock().read_to_end(&mut text)?;
    match programs::read(&text) {
        Ok(table) => std::fs::write(TABLE, table),
        Err(told) => out.write_all(told.as_bytes()),
    }
}

/// Writes the piece that is taken and the store without it, or tells why there is none.
fn take_piece(out: &mut impl Write) -> Result<()> {
    let mut input = Vec::new();
    std::io::stdin().lock().read_to_end(&mut input)?;
    // A store that can't be read counts as empty.
    let store = std::fs::read(STORE).unwrap_or_default();
    match programs::take(&read_table(Path::new(TABLE)), &store, &input) {
        Ok(moved) => {
            std::fs::write(PIECE_TABLE, moved.table)?;
            std::fs::write(PIECE_STATE, moved.state)?;
            std::fs::write(STORE, moved.store)
        }
        Err(told) => out.write_all(told.as_bytes()),
    }
}

/// The table's bytes; none if it can't be read. Beyond 33,000 bytes it is refused however it goes on.
fn read_table(path: &Path) -> Vec<u8> {
    let mut table = Vec::new();
    match std::fs::File::open(path).and_then(|file| file.take(33_000).read_to_end(&mut table)) {
        Ok(_) => table,
        Err(_) => Vec::new(),
    }
}
