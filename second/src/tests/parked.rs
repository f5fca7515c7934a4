//! L8: parked behaviours. Its examples and those of its design, typed in, and laws of the store and of what is taken.

use super::*;
use crate::lines;
use crate::make::draft::short::*;
use crate::make::limits::broad;
use crate::make::parked as calls;
use crate::state;
use crate::store::{self, Taken};
use crate::words::{hex, read_hex};

/// The figures of a program that parks.
fn with_f(g: u64, a: u64, w: u64, f: u64) -> Result<Figures, Refusal> {
    Ok(Figures { g, a, w, f })
}

/// Bytes as they are printed, blanks aside.
fn bytes(digits: &str) -> Vec<u8> {
    let digits = digits.replace(' ', "");
    read_hex(if digits.is_empty() { "-" } else { &digits }.as_bytes()).expect("hexadecimal")
}

/// A store with these bytes in use, and so many free ones, each 0.
fn store(pieces: &str, free: usize) -> Vec<u8> {
    let pieces = bytes(pieces);
    [&(pieces.len() as u16).to_be_bytes()[..], &pieces, &vec![0; free]].concat()
}

impl Play {
    /// Goes on with this store.
    fn lent(mut self, store: Vec<u8>) -> Play {
        self.store = store;
        self
    }

    /// Runs an instant that does no action: it must take these passes, answer this flag, leave these events, and wait so.
    fn runs(&mut self, handed: &[u16], passes: usize, answer: &str, events: &[u16], waits: Option<(usize, u16)>) {
        self.instant(handed, passes, answer, events, &[]);
        assert_eq!(self.waits, waits.map(|(node, event)| Wait { node, event }));
    }

    /// The state's phases and the pieces in the store are these, everything else is 0.
    fn leaves(&self, phases: &[u8], pieces: &str) {
        assert_eq!(self.phases(), phases);
        assert!(self.state.iter().enumerate().all(|(place, &byte)| place % 4 == 0 || byte == 0));
        assert_eq!(hex(&self.store), hex(&store(pieces, self.store.len() - 2 - bytes(pieces).len())));
    }
}

/// A call of `take` with rooms of so many bytes, what it left in them, and in the store.
fn take(table: &[u8], lent: &[u8], event: u16, rooms: (usize, usize)) -> (Result<Taken, Refusal>, [String; 3]) {
    let (mut lent, mut part, mut state) = (lent.to_vec(), vec![0xee; rooms.0], vec![0xee; rooms.1]);
    let taken = store::take(table, &mut lent, event, &mut part, &mut state);
    (taken, [part, state, lent].map(|room| hex(&room)))
}

fn lone() -> Draft {
    freezable(0, stop())
}

// Examples 1 and 2: rules 41 and 42; 45, 44 and 40.
#[test]
fn a_lone_stop() {
    assert_eq!(check(1, lone()), with_f(0, 0, 2, 8));
    // The store has room for exactly that.
    let mut play = Play::new(1, lone()).lent(store("", 8));
    play.runs(&[0], 1, "TERM", &[0], None);
    play.leaves(&[3, 0], "0000 0001 03000000");
    let mut play = Play::new(1, lone());
    play.runs(&[], 2, "STOP", &[], Some((0, 0)));
    play.leaves(&[0, 3], "");
    play.runs(&[0], 1, "TERM", &[0], None);
    play.leaves(&[3, 0], "");
}

// Example 3: the body stops at the end only: parked then, STOP and Nothing (43).
#[test]
fn parked_at_the_end() {
    let program = || freezable(0, wait(event(1)));
    assert_eq!(check(2, program()), with_f(0, 0, 2, 8));
    let mut play = Play::new(2, program());
    play.runs(&[0], 2, "STOP", &[0], Some((1, 1)));
    play.leaves(&[3, 0], "0000 0001 00000000");
    play.runs(&[], 1, "TERM", &[], None);
    play.leaves(&[3, 0], "0000 0001 00000000");
}

// Examples 4 and 5: pending for a pass, or frozen at once.
#[test]
fn beside_a_generate() {
    let mut play = Play::new(1, par(lone(), generate(0)));
    play.runs(&[], 2, "TERM", &[0], None);
    play.leaves(&[3, 0, 0, 0], "0000 0002 03000000");
    let mut play = Play::new(1, par(generate(0), lone()));
    play.runs(&[], 1, "TERM", &[0], None);
    play.leaves(&[3, 0, 0, 0], "0000 0003 03000000");
}

// Example 6: at the end the inner one parks and leaves Nothing with STOP, so the outer one parks too.
#[test]
fn one_within_another() {
    let program = || freezable(0, freezable(0, wait(event(1))));
    assert_eq!(check(2, program()), with_f(0, 0, 3, 20));
    let mut play = Play::new(2, program()).lent(store("", 20));
    play.runs(&[0], 2, "STOP", &[0], Some((2, 1)));
    play.leaves(&[3, 0, 0], "0000 0002 00000000  0000 0001 03000000 00000000");
}

// Example 7: a piece each instant, oldest first.
#[test]
fn a_piece_each_instant() {
    let program = || forever(seq(lone(), stop()));
    assert_eq!(check(1, program()), with_f(0, 0, 9, 16));
    let mut play = Play::new(1, program());
    play.runs(&[0], 1, "STOP", &[0], None);
    play.leaves(&[1, 2, 0, 0, 3], "0000 0003 03000000");
    play.runs(&[0], 1, "STOP", &[0], None);
    play.leaves(&[1, 2, 0, 0, 3], "0000 0003 03000000  0000 0003 03000000");
}

// Example 8: the local 0 freezes it; the piece's event is 0.
#[test]
fn frozen_by_a_local_event() {
    let mut play = Play::new(1, local(0, freezable(0, seq(generate(0), stop()))));
    play.runs(&[], 1, "TERM", &[], None);
    play.leaves(&[3, 0, 0, 0, 0], "0000 0002 02000000 00000000 03000000");
    // The 0 handed in isn't the local one.
    let mut play = Play::new(1, local(0, lone()));
    play.runs(&[0], 2, "STOP", &[0], Some((1, 0)));
    play.leaves(&[0, 0, 3], "");
}

// Example 9: 7 bytes are below F; no room for the count; a header cut short; a count beyond the store; and 11 before 25.
#[test]
fn refused_stores() {
    let with = |lent: Vec<u8>, events: &[u16]| {
        let mut play = Play::new(1, lone()).lent(lent.clone());
        let answer = play.call(events);
        assert_eq!((play.state, play.store), (vec![0; 8], lent));
        answer
    };
    assert_eq!(with(store("", 7), &[0]), refused(13, 0));
    assert_eq!(with(vec![], &[0]), refused(25, 0));
    assert_eq!(with(bytes("000100"), &[0]), refused(25, 0));
    assert_eq!(with(bytes("00050000000100"), &[0]), refused(25, 0));
    assert_eq!(with(vec![], &[1]), refused(11, 1));
}

// Example 10: node 2 is the body of a Freezable of 0, not of 1; node 1 is no body; a Stop in phase 1 isn't at rest; a good store stays.
#[test]
fn pieces_of_two_events() {
    let program = || par(freezable(0, stop()), freezable(1, stop()));
    for bad in ["0001 0002 00000000", "0000 0001 00000000 00000000", "0000 0002 01000000"] {
        assert_eq!(Play::new(2, program()).lent(store(bad, 64)).call(&[]), refused(25, 0), "{bad}");
    }
    let good = "0000 0002 00000000  0001 0004 03000000";
    let mut play = Play::new(2, program()).lent(store(good, 64));
    play.runs(&[], 2, "STOP", &[], Some((1, 0)));
    play.leaves(&[0, 0, 3, 0, 3], good);
}

// Example 11: below a repetition of count 0 nothing can have been parked.
#[test]
fn below_count_0() {
    let program = || seq(repeat(0, lone()), lone());
    assert_eq!(check(1, program()), with_f(0, 0, 4, 8));
    assert_eq!(Play::new(1, program()).lent(store("0000 0003 00000000", 64)).call(&[]), refused(25, 0));
    let mut play = Play::new(1, program()).lent(store("0000 0005 03000000", 64));
    play.runs(&[0], 1, "TERM", &[0], None);
    play.leaves(&[3, 0, 0, 0, 0, 0], "0000 0005 03000000  0000 0005 03000000");
}

// Examples 12 to 14: F at its limit and one beyond; never stopping.
#[test]
fn limits_of_f() {
    assert_eq!(check(1, repeat(2_048, lone())), with_f(0, 0, 4_097, 16_384));
    assert_eq!(check(1, repeat(2_049, lone())), refused(8, 0));
    assert_eq!(check(1, forever(lone())), refused(7, 0));
    assert_eq!(check(1, freezable(0, broad(4_095))).map(|figures| figures.f), Ok(16_384));
}

// Example 15: the body's three nodes as they are, V 2; the bytes behind the new end keep what stood there.
#[test]
fn taking_a_piece() {
    let program = seq(freezable(1, seq(stop(), atom(9))), atom(5));
    let mut play = Play::new(2, program);
    play.instant(&[1], 1, "TERM", &[1], &[5]);
    play.leaves(&[3, 0, 0, 0, 0, 0], "0001 0002 00000000 03000000 00000000");
    let table = play.table;
    let lent = bytes("0010 0001 0002 00000000 03000000 00000000 a5a5a5a5");
    let same = hex(&lent);
    let wanted = [
        "03000000000301000000000102000009000100030000000200120000",
        "000000000300000000000000",
        "000000010002000000000300000000000000a5a5a5a5",
    ];
    assert_eq!(take(&table, &lent, 1, (28, 12)), (Ok(Taken { table: 28, state: 12 }), wanted.map(str::to_string)));
    // Longer rooms keep what stands behind.
    let (_, rooms) = take(&table, &lent, 1, (29, 13));
    assert_eq!(rooms, [format!("{}ee", wanted[0]), format!("{}ee", wanted[1]), wanted[2].to_string()]);
    for (event, rooms, number) in
        [(0, (28, 12), 14), (1, (27, 12), 15), (1, (28, 11), 15), (0, (0, 0), 14), (2, (28, 12), 14)]
    {
        let left = [hex(&vec![0xee; rooms.0]), hex(&vec![0xee; rooms.1]), same.clone()];
        assert_eq!(take(&table, &lent, event, rooms), (refused(number, 0), left), "{event} {rooms:?}");
    }
    assert_eq!(take(&table, &[0], 1, (28, 12)).0, refused(25, 0));
    assert_eq!(take(&table[1..], &[0], 1, (28, 12)).0, refused(3, 0));
}

// Example 16: the gap is closed and the last 8 bytes keep the old third piece; taking 0 takes the newest, which stands last.
#[test]
fn the_newest_piece() {
    let table = Records::new(2, &par(freezable(0, stop()), freezable(1, stop()))).bytes();
    let lent = store("0000 0002 00000000  0001 0004 03000000  0000 0002 03000000", 0);
    let part = "01000000000100010000000200060000".to_string();
    let taken = |event| take(&table, &lent, event, (16, 4));
    let left = "0010000000020000000000000002030000000000000203000000".to_string();
    assert_eq!(taken(1), (Ok(Taken { table: 16, state: 4 }), [part.clone(), "03000000".to_string(), left]));
    let left = "0010000000020000000000010004030000000000000203000000".to_string();
    assert_eq!(taken(0), (Ok(Taken { table: 16, state: 4 }), [part, "03000000".to_string(), left]));
}

// Example 17: Jr.Freezable(event, body).
#[test]
fn texts() {
    let read = |text: &str, room: &str| lines::answer(format!("read {} {room}", hex(text.as_bytes())).as_bytes());
    let table = "0d0000010002010000000001000200000002000c0000";
    assert_eq!(read("Jr.Freezable(1, Jr.Stop())", &"00".repeat(22)), format!("0 0 22 {table}"));
    assert_eq!(read("Jr.Freezable(Jr.Stop())", "00"), "21 13 0 00");
    let text = hex(b"Jr.Freezable(1, Jr.Stop())");
    assert_eq!(lines::answer(format!("print {table} {}", "00".repeat(26)).as_bytes()), format!("0 0 26 {text}"));
}

/// The bytes of a design's example: a store of 40 bytes, all 0, goes on from instant to instant.
fn designed(events: u16, program: Draft, figures: (u64, u64, u64, u64)) -> Play {
    assert_eq!(check(events, program.clone()), with_f(figures.0, figures.1, figures.2, figures.3));
    Play::new(events, program).lent(vec![0; 40])
}

// B1 to B3 of the design are examples 1 to 3. B4: what follows runs on, and the piece can be taken.
#[test]
fn b4() {
    let mut play = designed(1, seq(freezable(0, seq(stop(), atom(5))), atom(6)), (0, 2, 6, 16));
    play.instant(&[0], 1, "TERM", &[0], &[6]);
    play.leaves(&[3, 0, 0, 0, 0, 0], "0000 0002 00000000 03000000 00000000");
    let (taken, [part, state, left]) = take(&play.table, &play.store, 0, (28, 12));
    assert_eq!(taken, Ok(Taken { table: 28, state: 12 }));
    assert_eq!(part, "030000000003010000000001020000050001".to_string() + "00030000000100120000");
    assert_eq!(state, "000000000300000000000000");
    assert_eq!(left, "0000".to_string() + &hex(&play.store[2..]));
}

// B5: all of F is parked; one taken after the other.
#[test]
fn b5() {
    let mut play = designed(3, freezable(0, freezable(1, wait(event(2)))), (0, 0, 3, 20));
    play.runs(&[0, 1], 2, "STOP", &[0, 1], Some((2, 2)));
    play.leaves(&[3, 0, 0], "0001 0002 00000000  0000 0001 03000000 00000000");
    let table = play.table;
    let mut left = play.store[..22].to_vec();
    let (mut part, mut state) = (vec![0; 26], vec![0; 8]);
    assert_eq!(store::take(&table, &mut left, 0, &mut part[..25], &mut state), refused(15, 0));
    assert_eq!(store::take(&table, &mut left, 0, &mut part, &mut state), Ok(Taken { table: 26, state: 8 }));
    assert_eq!(part, bytes("0d0000010002 080000000001 00020001 0002 0001 0003 0010 0004"));
    assert_eq!(state, bytes("03000000 00000000"));
    assert_eq!(left, bytes("0008 0001 0002 00000000 0000 0001 03000000 00000000"));
    assert_eq!(store::take(&table, &mut left, 1, &mut part, &mut state), Ok(Taken { table: 20, state: 4 }));
    assert_eq!(part[..20], bytes("080000000001 00020001 0001 0001 0003 000a 0004"));
    assert_eq!(state[..4], [0; 4]);
    assert_eq!(store::take(&table, &mut left, 1, &mut part, &mut state), refused(14, 0));
}

// B6: rounds of a loop that park pieces of two nodes.
#[test]
fn b6() {
    let body = seq(lone(), seq(stop(), freezable(0, seq(stop(), stop()))));
    let mut play = designed(1, forever(body), (0, 0, 19, 48)).lent(vec![0; 82]);
    play.runs(&[0], 1, "STOP", &[0], None);
    play.leaves(&[1, 2, 0, 0, 0, 3, 0, 0, 0, 0], "0000 0003 03000000");
    play.runs(&[0], 1, "STOP", &[0], None);
    let second = "0000 0003 03000000  0000 0007 00000000 03000000 00000000  0000 0003 03000000";
    play.leaves(&[1, 2, 0, 0, 0, 3, 0, 0, 0, 0], second);
}

// B7 and B8: a local event that comes in a later pass; a body that would go on for ever.
#[test]
fn b7_and_b8() {
    let mut play = designed(1, local(0, par(lone(), generate(0))), (1, 0, 5, 8));
    play.runs(&[], 2, "TERM", &[], None);
    play.leaves(&[3, 0, 0, 0, 0], "0000 0003 03000000");
    let program = par(freezable(0, forever(stop())), seq(wait(event(1)), generate(0)));
    let mut play = designed(2, program, (1, 0, 8, 12));
    play.runs(&[1], 2, "TERM", &[0, 1], None);
    play.leaves(&[3, 0, 0, 0, 0, 0, 0], "0000 0002 01000000 03000000");
}

// B9 and B10: twice in one instant; a count that is kept in the piece.
#[test]
fn b9_and_b10() {
    let mut play = designed(1, repeat(2, lone()), (0, 0, 5, 16));
    play.runs(&[0], 1, "TERM", &[0], None);
    play.leaves(&[3, 0, 0], "0000 0002 03000000  0000 0002 03000000");
    let mut play = designed(1, freezable(0, repeat(3, seq(stop(), atom(1)))), (0, 2, 8, 20));
    play.runs(&[], 2, "STOP", &[], Some((0, 0)));
    assert_eq!(play.state, bytes("00000000 01000002 00000000 03000000 00000000"));
    play.instant(&[0], 1, "TERM", &[0], &[1]);
    play.leaves(&[3, 0, 0, 0, 0], "0000 0001 01000001 00000000 03000000 00000000");
}

// The design's stores that 25 refuses with B1's table, its count 0 and 1, and 13 at 9 bytes.
#[test]
fn stores_of_the_design() {
    for bad in [
        "0008 0001 0001 03000000",
        "0008 0000 0001 01000000",
        "0008 0000 0001 030000",
        "000b 0000 0001 03000000 000000",
        "00",
    ] {
        assert_eq!(Play::new(1, lone()).lent(bytes(bad)).call(&[0]), refused(25, 0), "{bad}");
    }
    let piece = || store("0000 0002 00000000", 8);
    assert_eq!(Play::new(1, repeat(0, lone())).lent(piece()).call(&[]), refused(25, 0));
    assert!(Play::new(1, repeat(1, lone())).lent(piece()).call(&[]).is_ok());
    assert_eq!(Play::new(1, lone()).lent(vec![0; 9]).call(&[]), refused(13, 0));
    assert!(Play::new(1, lone()).lent(vec![0; 10]).call(&[]).is_ok());
}

// L8.1: while pending the body isn't run again: its atom comes once, in however many passes.
#[test]
fn pending_rests() {
    let chain = par(seq(wait(event(1)), generate(2)), seq(wait(event(2)), generate(0)));
    let program = par(par(freezable(0, seq(atom(7), stop())), chain), generate(1));
    let mut play = Play::new(3, program);
    play.instant(&[], 3, "TERM", &[0, 1, 2], &[7]);
    assert_eq!(play.store[..2], [0, 16]);
}

// L8.6, L8.8: a store of 0 or 1 bytes is 25, whatever F; with F 0 there is no 13; 65,537 bytes serve and no more.
#[test]
fn shortest_and_longest_stores() {
    for (program, f) in [(stop(), 0), (lone(), 8)] {
        for length in [0, 1] {
            assert_eq!(Play::new(1, program.clone()).lent(vec![0; length]).call(&[]), refused(25, 0));
        }
        let answer = Play::new(1, program).lent(vec![0; 2]).call(&[]);
        assert_eq!(answer.is_ok(), f == 0);
    }
    // 8,190 pieces are 65,520 bytes and leave 15 of 65,535; one more leaves 7, however long the store is.
    let pieces = |many: usize, free: usize| store(&"0000 0001 03000000".repeat(many), free);
    let mut play = Play::new(1, lone()).lent(pieces(8_190, 8));
    play.runs(&[0], 1, "TERM", &[0], None);
    assert_eq!(play.store[..2], [0xff, 0xf8]);
    assert_eq!(Play::new(1, lone()).lent(pieces(8_190, 7)).call(&[0]), refused(13, 0));
    assert_eq!(Play::new(1, lone()).lent(pieces(8_191, 9)).call(&[0]), refused(13, 0));
    assert_eq!(Play::new(1, lone()).lent(pieces(8_191, 900)).call(&[0]), refused(13, 0));
}

// A taken piece goes on in a box of its own, as the program would have gone on without being frozen.
#[test]
fn an_install_moves() {
    let install = seq(atom(1), seq(wait(event(1)), atom(2)));
    let mut first = Play::new(2, freezable(0, install.clone()));
    first.instant(&[0], 2, "STOP", &[0], &[1]);
    let (mut part, mut state) = (vec![0; 60], vec![0; 40]);
    let taken = store::take(&first.table, &mut first.store, 0, &mut part, &mut state).expect("parked");
    part.truncate(taken.table);
    state.truncate(taken.state);
    let mut second = Play { table: part, state, store: vec![0; 2], atoms: vec![], waits: None };
    let mut alone = Play::new(2, install);
    assert!(alone.call(&[0]).is_ok());
    assert_eq!(second.state, alone.state);
    for handed in [&[][..], &[1]] {
        assert_eq!(second.call(handed), alone.call(handed));
        assert_eq!((&second.state, &second.atoms), (&alone.state, &alone.atoms));
    }
    assert_eq!(second.atoms, [2]);
}

// Over random calls: an instant adds at most F bytes, leaves the pieces of before and the bytes behind, and a good store.
#[test]
fn what_an_instant_parks() {
    let (mut parked, mut kept) = (0, 0);
    for line in calls::lines(6_000, 5) {
        let answer = lines::answer(line.as_bytes());
        let (asked, told): (Vec<&str>, Vec<&str>) = (line.split(' ').collect(), answer.split(' ').collect());
        if asked[0] != "instant" || told[0] != "0" {
            continue;
        }
        let (program, figures) = instant::load(&bytes(asked[1])).expect("accepted");
        let (before, after) = (bytes(asked[6]), bytes(told[12]));
        let [old, new] = [&before, &after].map(|room| store::read(&program.root, room).expect("a good store"));
        assert_eq!(new[..old.len()], old, "{line}");
        let used = |room: &[u8]| usize::from(u16::from_be_bytes([room[0], room[1]]));
        assert!((used(&after) - used(&before)) as u64 <= figures.f, "{line}");
        assert_eq!(before[2 + used(&after)..], after[2 + used(&after)..], "{line}");
        parked += usize::from(new.len() > old.len());
        kept += usize::from(before == after && !old.is_empty());
    }
    assert!(parked > 300 && kept > 300, "{parked} {kept}");
}

// Over random calls: what is taken is the newest of its event, the others stay in their order, and its table and state run.
#[test]
fn what_is_taken() {
    let (mut takes, mut gaps) = (0, 0);
    for line in calls::lines(12_000, 6) {
        let answer = lines::answer(line.as_bytes());
        let (asked, told): (Vec<&str>, Vec<&str>) = (line.split(' ').collect(), answer.split(' ').collect());
        if asked[0] != "take" || told[0] != "0" {
            continue;
        }
        let (table, event): (_, u16) = (bytes(asked[1]), asked[3].parse().expect("a number"));
        let root = instant::load(&table).expect("accepted").0.root;
        let [mut old, new] = [asked[2], told[4]].map(|room| store::read(&root, &bytes(room)).expect("a good store"));
        let newest = old.iter().rposition(|piece| piece.event == event).expect("a piece");
        gaps += usize::from(newest + 1 < old.len());
        let piece = old.remove(newest);
        assert_eq!(new, old, "{line}");
        let lengths = [told[2], told[3]].map(|word| word.parse::<usize>().expect("a number"));
        let (part, state) = (&bytes(told[5])[..lengths[0]], &bytes(told[6])[..lengths[1]]);
        assert_eq!(state, piece.state);
        let (program, figures) = instant::load(part).expect("a taken table is accepted");
        assert_eq!(program.root.to_string(), state::node_at(&root, piece.body).to_string());
        let mut lent = vec![0; 2 + figures.f as usize];
        let mut run = state.to_vec();
        let answer = instant::instant(part, &mut run, Events::none(), Values::default(), &mut [0; 4_096], &mut lent);
        assert!(answer.is_ok(), "{line}");
        takes += 1;
    }
    assert!(takes > 600 && gaps > 150, "{takes} {gaps}");
}
