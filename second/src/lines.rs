//! One call a line: reads the lines of the calls program and prints what each call answered
//! and what the lent rooms hold afterwards.

use crate::env::{Events, Values, EVENTS};
use crate::instant::{self, Report};
use crate::store::{self, Taken};
use crate::table::Refusal;
use crate::text;
use crate::words;

/// A call with everything that it lends.
#[derive(Clone, Debug, PartialEq, Eq)]
pub enum Call {
    Check {
        table: Vec<u8>,
    },
    Start {
        table: Vec<u8>,
        state: Vec<u8>,
    },
    Instant {
        table: Vec<u8>,
        state: Vec<u8>,
        events: Events,
        values: Values,
        row: Vec<u16>,
        store: Vec<u8>,
    },
    /// The event whose newest piece is taken, and the rooms for its table and state (L8).
    Take {
        table: Vec<u8>,
        store: Vec<u8>,
        event: u16,
        table_room: Vec<u8>,
        state_room: Vec<u8>,
    },
    /// The text and the room for its table.
    Read {
        text: Vec<u8>,
        room: Vec<u8>,
    },
    /// The table and the room for its text.
    Print {
        table: Vec<u8>,
        room: Vec<u8>,
    },
}

/// The answer line of a line.
pub fn answer(line: &[u8]) -> String {
    in_any_order(line, &mut || false)
}

/// The answer line of a line, an instant running the branches of Par in the order that is asked for each time.
pub fn in_any_order(line: &[u8], second_first: &mut dyn FnMut() -> bool) -> String {
    match read(line) {
        Some(call) => make(call, second_first),
        None => "bad-line".to_string(),
    }
}

/// A call as its line.
pub fn print(call: &Call) -> String {
    match call {
        Call::Check { table } => format!("check {}", words::hex(table)),
        Call::Start { table, state } => format!("start {} {}", words::hex(table), words::hex(state)),
        Call::Instant { table, state, events, values, row, store } => format!(
            "instant {} {} {} {} {} {}",
            words::hex(table),
            words::hex(state),
            words::list(events.rising()),
            words::hex(values),
            words::hex(&words::row_bytes(row)),
            words::hex(store)
        ),
        Call::Take { table, store, event, table_room, state_room } => format!(
            "take {} {} {event} {} {}",
            words::hex(table),
            words::hex(store),
            words::hex(table_room),
            words::hex(state_room)
        ),
        Call::Read { text, room } => format!("read {} {}", words::hex(text), words::hex(room)),
        Call::Print { table, room } => format!("print {} {}", words::hex(table), words::hex(room)),
    }
}

fn read(line: &[u8]) -> Option<Call> {
    if line.len() > 400_000 {
        return None;
    }
    let words: Vec<&[u8]> = line.split(|&byte| byte == b' ').collect();
    match words[..] {
        [b"check", table] => Some(Call::Check { table: read_table(table)? }),
        [b"start", table, state] => Some(Call::Start { table: read_table(table)?, state: read_state(state)? }),
        [b"instant", table, state, events, values, row, store] => Some(Call::Instant {
            table: read_table(table)?,
            state: read_state(state)?,
            events: read_events(events)?,
            values: read_values(values)?,
            row: read_row(row)?,
            store: read_store(store)?,
        }),
        [b"take", table, store, event, table_room, state_room] => Some(Call::Take {
            table: read_table(table)?,
            store: read_store(store)?,
            event: words::event(event)?,
            table_room: read_table(table_room)?,
            state_room: read_state(state_room)?,
        }),
        [b"read", text, room] => Some(Call::Read { text: read_text(text)?, room: read_table(room)? }),
        [b"print", table, room] => Some(Call::Print { table: read_table(table)?, room: read_text(room)? }),
        _ => None,
    }
}

fn read_table(word: &[u8]) -> Option<Vec<u8>> {
    words::read_hex(word).filter(|table| table.len() <= 33_000)
}

fn read_text(word: &[u8]) -> Option<Vec<u8>> {
    words::read_hex(word).filter(|text| text.len() <= 33_000)
}

fn read_state(word: &[u8]) -> Option<Vec<u8>> {
    words::read_hex(word).filter(|state| state.len() <= 17_000)
}

fn read_store(word: &[u8]) -> Option<Vec<u8>> {
    words::read_hex(word).filter(|store| store.len() <= 66_000)
}

fn read_row(word: &[u8]) -> Option<Vec<u16>> {
    let bytes = words::read_hex(word).filter(|bytes| bytes.len() % 2 == 0 && bytes.len() / 2 <= 4_200)?;
    Some(bytes.chunks(2).map(|pair| u16::from_be_bytes([pair[0], pair[1]])).collect())
}

fn read_events(word: &[u8]) -> Option<Events> {
    if word == b"-" {
        return Some(Events::none());
    }
    word.split(|&byte| byte == b',').map(words::event).collect()
}

/// All values, none more and none fewer.
fn read_values(word: &[u8]) -> Option<Values> {
    words::read_hex(word)?.try_into().ok()
}

/// Makes the call and prints its answer.
fn make(call: Call, second_first: &mut dyn FnMut() -> bool) -> String {
    match call {
        Call::Check { table } => match instant::check(&table) {
            Ok(figures) => format!("0 0 {} {} {} {}", figures.g, figures.a, figures.w, figures.f),
            Err(Refusal { number, index }) => format!("{number} {index} 0 0 0 0"),
        },
        Call::Start { table, mut state } => {
            let Refusal { number, index } = instant::start(&table, &mut state).err().unwrap_or(Refusal::new(0, 0));
            format!("{number} {index} {}", words::hex(&state))
        }
        Call::Instant { table, mut state, events, values, mut row, mut store } => {
            let answer = instant::in_any_order(&table, &mut state, events, values, &mut row, &mut store, second_first);
            let Refusal { number, index } = answer.as_ref().err().copied().unwrap_or(Refusal::new(0, 0));
            let refused = Report { events: Events::none(), atoms: 0, finished: false, passes: 0, waits: None };
            let report = answer.unwrap_or(refused);
            format!(
                "{number} {index} {} {} {} {} {} {} {} {} {} {} {}",
                words::list(report.events.rising()),
                report.events.rising().count(),
                report.events.rising().next().map_or(EVENTS, usize::from),
                report.atoms,
                u8::from(report.finished),
                report.passes,
                report.waits.map_or(4096, |wait| wait.node),
                report.waits.map_or(EVENTS, |wait| usize::from(wait.event)),
                words::hex(&state),
                words::hex(&words::row_bytes(&row)),
                words::hex(&store)
            )
        }
        Call::Take { table, mut store, event, mut table_room, mut state_room } => {
            let answer = store::take(&table, &mut store, event, &mut table_room, &mut state_room);
            let Refusal { number, index } = answer.err().unwrap_or(Refusal::new(0, 0));
            let taken = answer.unwrap_or(Taken { table: 0, state: 0 });
            format!(
                "{number} {index} {} {} {} {} {}",
                taken.table,
                taken.state,
                words::hex(&store),
                words::hex(&table_room),
                words::hex(&state_room)
            )
        }
        Call::Read { text, mut room } => written(text::read(&text, &mut room), &room),
        Call::Print { table, mut room } => written(text::print(&table, &mut room), &room),
    }
}

/// The answer of a call that writes so many bytes into a room.
fn written(answer: Result<usize, Refusal>, room: &[u8]) -> String {
    let Refusal { number, index } = answer.err().unwrap_or(Refusal::new(0, 0));
    format!("{number} {index} {} {}", answer.unwrap_or(0), words::hex(room))
}

#[cfg(test)]
mod tests {
    use super::*;

    /// K1's table: a lone Nothing.
    const NOTHING: &str = "00000000000100010000000100060000";

    /// Sixteen values, all 0.
    const ZEROS: &str = "00000000000000000000000000000000";

    fn says(line: &str, wanted: &str) {
        assert_eq!(answer(line.as_bytes()), wanted, "{line}");
    }

    #[test]
    fn good_lines() {
        says(&format!("check {NOTHING}"), "0 0 0 0 1 0");
        says("check -", "1 0 0 0 0 0");
        says(&format!("start {NOTHING} 0102030405"), "0 0 0000000005");
        says(&format!("start {NOTHING} 010203"), "9 0 010203");
        says(&format!("start {NOTHING} -"), "9 0 -");
        says(
            &format!("instant {NOTHING} 00000000ff 0,0 {ZEROS} - 0000"),
            "0 0 0 1 0 0 1 1 4096 1024 03000000ff - 0000",
        );
        says(
            &format!("instant {NOTHING} 00000000 - {ZEROS} 0007 000003"),
            "0 0 - 0 1024 0 1 1 4096 1024 03000000 0007 000003",
        );
        says(
            &format!("instant {NOTHING} 00000000 3,0,1 {ZEROS} 0007 -"),
            "11 1 - 0 1024 0 0 0 4096 1024 00000000 0007 -",
        );
        // A lone Freezable over Stop, and its piece taken.
        let frozen = "0d0000000002010000000001000200000001000c0000";
        let stop = "01000000000100010000000100060000";
        says(&format!("check {frozen}"), "0 0 0 0 2 8");
        says(
            &format!("take {frozen} 00080000000103000000 0 {} 0102030405", "ee".repeat(17)),
            &format!("0 0 16 4 00000000000103000000 {stop}ee 0300000005"),
        );
        says(&format!("take {frozen} 0000ff 0 01 02"), "14 0 0 0 0000ff 01 02");
        // The text of the table.
        let text = words::hex(b"Jr.Nothing()");
        says(&format!("read {text} {NOTHING}0506"), &format!("0 0 16 {NOTHING}0506"));
        says(&format!("read {text} 01"), "22 0 0 01");
        says("read 4a 01", "21 1 0 01");
        says("read - -", "21 0 0 -");
        says(&format!("print {NOTHING} {text}ff"), &format!("0 0 12 {text}ff"));
        says(&format!("print {NOTHING} -"), "24 0 0 -");
        says("print - 01", "1 0 0 01");
    }

    #[test]
    fn bad_lines() {
        for line in ["", "check", "check  -", " check -", "check - ", "check - -", "Check -", "check 0", "check 0G"] {
            says(line, "bad-line");
        }
        for line in
            ["start -", "start - - -", "instant - - -", "instant - - - - - -", "instant - -  - - -", "check -\r"]
        {
            says(line, "bad-line");
        }
        for line in ["read", "read -", "read - - -", "read 4A -", "read - 0", "print -", "print - - -", "prints - -"] {
            says(line, "bad-line");
        }
        for line in ["take", "take - - 0 -", "take - - 0 - - -", "take - - - - -", "take - 0 0 - -", "Take - - 0 - -"] {
            says(line, "bad-line");
        }
        for event in ["", "1024", "00", "0,1", "x"] {
            says(&format!("take - - {event} - -"), "bad-line");
        }
        says("take - - 1023 - -", "1 0 0 0 - - -");
        for events in ["", ",", "0,", ",0", "00", "1024", "0,,1", "0 1", "-,0", "+1"] {
            says(&format!("instant - - {events} {ZEROS} - -"), "bad-line");
        }
        for row in ["", "00", "0", "000000", "000G"] {
            says(&format!("instant - - - {ZEROS} {row} -"), "bad-line");
        }
        for store in ["", "0", "000", "0G"] {
            says(&format!("instant - - - {ZEROS} - {store}"), "bad-line");
        }
        says(&format!("instant - - - {ZEROS} - -"), "1 0 - 0 1024 0 0 0 4096 1024 - - -");
        for values in ["", "-", "00", &ZEROS[2..], &ZEROS[1..], &format!("{ZEROS}00"), &ZEROS.replace("00", "0A")] {
            says(&format!("instant - - - {values} - -"), "bad-line");
        }
    }

    #[test]
    fn limits_of_a_line() {
        let zeros = |bytes: usize| "00".repeat(bytes);
        says(&format!("check {}", zeros(33_000)), "1 0 0 0 0 0");
        says(&format!("check {}", zeros(33_001)), "bad-line");
        says(&format!("start - {}", zeros(17_000)), &format!("1 0 {}", zeros(17_000)));
        says(&format!("start - {}", zeros(17_001)), "bad-line");
        says(
            &format!("instant - - - {ZEROS} {} -", zeros(8_400)),
            &format!("1 0 - 0 1024 0 0 0 4096 1024 - {} -", zeros(8_400)),
        );
        says(&format!("instant - - - {ZEROS} {} -", zeros(8_402)), "bad-line");
        says(
            &format!("instant - - - {ZEROS} - {}", zeros(66_000)),
            &format!("1 0 - 0 1024 0 0 0 4096 1024 - - {}", zeros(66_000)),
        );
        says(&format!("instant - - - {ZEROS} - {}", zeros(66_001)), "bad-line");
        for (store, table, state, wanted) in
            [(66_001, 0, 0, true), (0, 33_001, 0, true), (0, 0, 17_001, true), (66_000, 33_000, 17_000, false)]
        {
            let rooms = [store, table, state].map(|length| words::hex(&vec![0; length]));
            let answer = answer(format!("take - {} 0 {} {}", rooms[0], rooms[1], rooms[2]).as_bytes());
            assert_eq!(answer == "bad-line", wanted);
        }
        for word in ["read", "print"] {
            for (given, room) in [(33_001, 0), (0, 33_001)] {
                says(&format!("{word} {} {}", words::hex(&vec![0; given]), words::hex(&vec![0; room])), "bad-line");
            }
        }
        says(&format!("read {} {}", zeros(33_000), zeros(33_000)), &format!("21 0 0 {}", zeros(33_000)));
        says(&format!("print {} {}", zeros(33_000), zeros(33_000)), &format!("1 0 0 {}", zeros(33_000)));
        // The events may be as many as the line holds: 12 + 399,951 + 37 bytes are 400,000.
        let many = ",10".repeat(133_316);
        says(&format!("instant - - 100{many} {ZEROS} - -"), "1 0 - 0 1024 0 0 0 4096 1024 - - -");
        says(&format!("instant - - 1000{many} {ZEROS} - -"), "bad-line");
    }

    #[test]
    fn a_call_reads_as_it_is_printed() {
        let call = Call::Instant {
            table: vec![1, 2],
            state: vec![],
            events: [3, 900].into_iter().collect(),
            values: [1, 2, 0, 0, 0, 0, 0, 0, 0, 0, 0, 0, 0, 0, 0, 255],
            row: vec![7, 65_535],
            store: vec![0, 0, 9],
        };
        assert_eq!(print(&call), "instant 0102 - 3,900 010200000000000000000000000000ff 0007ffff 000009");
        assert_eq!(read(print(&call).as_bytes()), Some(call));
        let call =
            Call::Take { table: vec![1, 2], store: vec![0, 0], event: 1_023, table_room: vec![], state_room: vec![7] };
        assert_eq!(print(&call), "take 0102 0000 1023 - 07");
        assert_eq!(read(print(&call).as_bytes()), Some(call));
    }
}
