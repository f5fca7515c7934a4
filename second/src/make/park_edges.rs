//! Call lines of L8: what a Freezable weighs and when it parks, stores at every edge and with every fault, and pieces taken.

use super::draft::short::*;
use super::draft::{Draft, Records};
use super::edges::{Edges, OTHER};
use super::limits::{broad, wrapped};
use crate::env::Values;
use crate::instant;
use crate::state;
use crate::store::{self, Piece};

/// Adds them to the others.
pub fn add(edges: &mut Edges) {
    records(edges);
    loops(edges);
    figures(edges);
    rules(edges);
    places(edges);
    examples(edges);
    pending_states(edges);
    appended(edges);
    damaged_stores(edges);
    bodies(edges);
    repetitions(edges);
    pieces_at_rest(edges);
    rooms(edges);
    longest_stores(edges);
    refused_before(edges);
    takes(edges);
    refused_takes(edges);
    taken_tables(edges);
    odd_lines(edges);
}

/// A piece whose body's state has these phases, flags and counts 0.
fn piece(event: u16, body: usize, phases: &[u8]) -> Piece {
    Piece { event, body, state: phases.iter().flat_map(|&phase| [phase, 0, 0, 0]).collect() }
}

/// A store of these pieces, with so many bytes behind them.
fn store(pieces: &[Piece], free: usize) -> Vec<u8> {
    let used: usize = pieces.iter().map(|piece| 4 + piece.state.len()).sum();
    let mut store = vec![OTHER; 2 + used + free];
    store::write(pieces, &mut store);
    store
}

/// An instant of a fresh state, with this store.
fn lend(edges: &mut Edges, records: &Records, events: &[u16], store: &[u8]) {
    let table = records.bytes();
    let places = instant::check(&table).map_or(0, |figures| figures.a as usize);
    edges.lent(&table, &vec![0; 4 * records.nodes.len()], events, Values::default(), places, store);
}

/// Two Freezables of different events, the first over three nodes: bodies at nodes 2 and 6.
fn two() -> Records {
    Records::new(3, &par(freezable(0, seq(stop(), atom(9))), freezable(1, stop())))
}

// Refusal 5: an event below V, one child, the zero byte.
fn records(edges: &mut Edges) {
    for v in [1, 2, 256, 1_024] {
        for argument in [0, v - 1, v, 65_535] {
            edges.check(&Records::raw(v, &[(13, argument, 2), (1, 0, 1)], &[]).bytes());
        }
    }
    for size in [0, 1, 3, 65_535] {
        edges.check(&Records::raw(1, &[(3, 0, 4), (13, 0, size), (1, 0, 1), (1, 0, 1)], &[]).bytes());
    }
    let mut marked = Records::new(1, &freezable(0, stop()));
    marked.nodes[0].zero = 1;
    edges.check(&marked.bytes());
    for times in [62, 63, 64] {
        edges.check(&Records::new(1, &wrapped(times, stop(), |_, t| freezable(0, t))).bytes());
    }
}

// Refusal 7: a Freezable never counts as stopping, and a Loop within it is named.
fn loops(edges: &mut Edges) {
    let frozen = || freezable(0, stop());
    for body in [
        frozen(),
        freezable(0, forever(stop())),
        freezable(0, freezable(1, stop())),
        seq(frozen(), stop()),
        seq(frozen(), nothing()),
        par(nothing(), frozen()),
        par(frozen(), stop()),
        control(0, frozen()),
        local(0, frozen()),
        repeat(1, frozen()),
        when(event(0), frozen(), stop()),
        when(event(0), stop(), frozen()),
        until(event(0), stop(), frozen()),
        until(not(event(0)), stop(), frozen()),
        until(event(0), frozen(), stop()),
        choose(0, frozen(), stop()),
    ] {
        edges.check(&Records::new(2, &forever(body)).bytes());
    }
    edges.check(&Records::new(1, &freezable(0, forever(nothing()))).bytes());
    edges.check(&Records::new(1, &freezable(0, seq(forever(stop()), forever(frozen())))).bytes());
}

// F: 4 and 4 for each node of the body, in every form; refusal 8 above 16,384.
fn figures(edges: &mut Edges) {
    let three = || freezable(0, seq(stop(), atom(1)));
    let one = || freezable(1, generate(1));
    for program in [
        one(),
        three(),
        freezable(0, broad(10)),
        freezable(0, one()),
        freezable(0, par(one(), three())),
        seq(one(), three()),
        par(three(), one()),
        until(event(0), one(), three()),
        when(event(0), one(), three()),
        when(event(0), three(), one()),
        choose(0, one(), three()),
        choose(0, three(), one()),
        control(0, three()),
        local(0, three()),
        forever(seq(three(), stop())),
        repeat(0, three()),
        repeat(1, three()),
        repeat(7, three()),
        repeat(7, seq(three(), stop())),
        repeat_ext(0, 0, three()),
        repeat_ext(0, 9, three()),
        repeat_ext(0, 9, par(three(), stop())),
        repeat(3, repeat(3, freezable(0, repeat(5, one())))),
    ] {
        edges.check(&Records::new(2, &program).bytes());
    }
    for over in [0, 1] {
        let many = |count: u16, body: Draft| repeat(count + over, freezable(0, body));
        edges.check(&Records::new(1, &many(2_048, stop())).bytes());
        edges.check(&Records::new(1, &many(1_024, broad(3))).bytes());
        edges.check(&Records::new(1, &many(1_365, broad(2))).bytes());
        edges.check(&Records::new(1, &forever(seq(many(1_024, stop()), stop()))).bytes());
        edges.check(&Records::new(1, &when(event(0), many(2_048, stop()), many(2_048, stop()))).bytes());
        edges.check(&Records::new(1, &seq(many(1_024, stop()), repeat(1_024, freezable(0, stop())))).bytes());
        let capped = repeat_ext(0, 255, repeat(8, freezable(0, stop())));
        edges.check(&Records::new(1, &seq(capped, many(8, stop()))).bytes());
        edges.check(&Records::new(1, &wrapped(2, broad(2_046 + usize::from(over)), |_, t| freezable(0, t))).bytes());
    }
    edges.check(&Records::new(1, &freezable(0, broad(4_095))).bytes());
    edges.check(&Records::new(1, &repeat(0, repeat(65_535, repeat(65_535, three())))).bytes());
}

// Rules 40 to 45 over bodies that end, stop, wait, go on, and freeze themselves; the event there, not there, or of the body's own making.
fn rules(edges: &mut Edges) {
    for body in [
        nothing(),
        stop(),
        atom(3),
        wait(event(1)),
        wait(not(event(1))),
        seq(generate(0), stop()),
        seq(stop(), generate(0)),
        seq(atom(1), seq(stop(), atom(2))),
        forever(seq(atom(1), stop())),
        repeat(3, seq(stop(), atom(1))),
        repeat_ext(0, 3, stop()),
        par(stop(), atom(4)),
        par(wait(event(1)), stop()),
        when(event(1), stop(), atom(2)),
        until(event(1), stop(), seq(atom(2), stop())),
        control(1, seq(stop(), atom(1))),
        local(0, seq(generate(0), stop())),
        choose(0, nothing(), stop()),
        freezable(0, wait(event(1))),
        freezable(1, stop()),
    ] {
        let program = freezable(0, body);
        edges.play(2, &program, &[&[], &[0]]);
        edges.play(2, &program, &[&[0]]);
    }
}

// What stands round a Freezable: what follows it, who generates its event and when, scopes, rounds.
fn places(edges: &mut Edges) {
    let frozen = || freezable(0, seq(stop(), atom(5)));
    let looped = forever(seq(frozen(), seq(stop(), freezable(0, seq(stop(), stop())))));
    for program in [
        seq(frozen(), atom(6)),
        seq(frozen(), seq(atom(6), stop())),
        seq(freezable(0, wait(event(1))), atom(6)),
        par(frozen(), generate(0)),
        par(generate(0), frozen()),
        par(frozen(), seq(wait(event(1)), generate(0))),
        par(frozen(), wait(event(1))),
        par(frozen(), freezable(1, wait(event(0)))),
        par(freezable(1, frozen()), freezable(0, wait(event(2)))),
        local(0, frozen()),
        local(0, par(frozen(), generate(0))),
        local(0, par(generate(0), frozen())),
        local(0, freezable(0, seq(generate(0), stop()))),
        par(local(0, seq(generate(0), stop())), frozen()),
        control(1, frozen()),
        when(event(1), frozen(), stop()),
        until(event(0), frozen(), atom(7)),
        until(event(1), wait(event(2)), frozen()),
        repeat(2, frozen()),
        repeat(2, seq(frozen(), generate(1))),
        forever(seq(frozen(), stop())),
        looped,
        choose(0, stop(), frozen()),
        seq(repeat_ext(0, 2, frozen()), frozen()),
    ] {
        edges.play(3, &program, &[&[0], &[0]]);
        edges.play(3, &program, &[&[0, 1]]);
    }
    // Many pieces in one instant, and as many in an instant as F tells.
    edges.play(1, &repeat(40, freezable(0, stop())), &[&[0]]);
    edges.play(2, &wrapped(6, wait(event(1)), |_, t| freezable(0, t)), &[&[0], &[]]);
    edges.play(2, &wrapped(6, wait(event(1)), |number, t| freezable(number as u16 % 2, t)), &[&[0, 1], &[]]);
    // Numbers of which both bytes count.
    let far = par(broad(299), freezable(700, seq(stop(), atom(1))));
    edges.play(1_024, &far, &[&[700]]);
    edges.play(1_024, &freezable(1_023, stop()), &[&[1_023]]);
    edges.play(1_024, &freezable(256, stop()), &[&[0], &[256]]);
}

// Examples 1 to 8 of L8 that aren't among the above.
fn examples(edges: &mut Edges) {
    edges.play(1, &forever(seq(freezable(0, stop()), stop())), &[&[0], &[0], &[], &[0]]);
    edges.play(2, &freezable(0, freezable(1, wait(event(1)))), &[&[0, 1], &[]]);
    edges.play(3, &freezable(0, freezable(1, wait(event(2)))), &[&[0, 1]]);
    edges.play(2, &par(freezable(0, forever(stop())), seq(wait(event(1)), generate(0))), &[&[1]]);
    edges.play(1, &freezable(0, repeat(3, seq(stop(), atom(1)))), &[&[], &[0]]);
}

// Refusal 10: pending isn't at rest, wherever the Freezable stands; states that no run reaches.
fn pending_states(edges: &mut Edges) {
    let records = Records::new(1, &seq(freezable(0, seq(stop(), atom(1))), freezable(0, stop())));
    for place in [4, 20] {
        for phase in [1, 2] {
            let mut state = vec![0; 28];
            state[place] = phase;
            edges.go_on(&records, state, &[&[0]]);
        }
    }
    for cells in [&[(8, 3)][..], &[(8, 2), (16, 3)], &[(4, 3)], &[(0, 2), (20, 3)], &[(0, 2), (24, 3)], &[(12, 3)]] {
        let mut state = vec![0; 28];
        for &(place, value) in cells {
            state[place] = value;
        }
        edges.go_on(&records, state, &[&[0], &[0]]);
    }
}

// New pieces stand behind those of before, whatever these are; the count goes up over a byte; what is behind keeps its bytes.
fn appended(edges: &mut Edges) {
    let records = two();
    let before = [piece(1, 6, &[3]), piece(0, 2, &[2, 0, 0]), piece(1, 6, &[0])];
    for most in 0..=before.len() {
        for events in [&[][..], &[1], &[0, 1]] {
            lend(edges, &records, events, &store(&before[..most], 30));
        }
    }
    let single = Records::new(1, &freezable(0, stop()));
    for pieces in [30, 31, 32] {
        lend(edges, &single, &[0], &store(&vec![piece(0, 1, &[3]); pieces], 8));
    }
    // Bytes behind those in use are as they were, also where an instant parks nothing.
    for length in [2, 3, 9, 10, 11, 40] {
        let mut room = vec![0x5a; length];
        room[..2].fill(0);
        lend(edges, &single, &[0], &room);
        lend(edges, &Records::new(1, &stop()), &[0], &room);
    }
}

// Refusal 25: every byte of a store changed, every count, every length.
fn damaged_stores(edges: &mut Edges) {
    let records = two();
    let good = store(&[piece(0, 2, &[0, 3, 0]), piece(1, 6, &[3])], 24);
    let used = 26;
    for place in 0..used {
        // A head's bytes by one and by two, a state's by one.
        let head = place < 6 || (18..22).contains(&place);
        for &change in if head { &[1, 2][..] } else { &[1] } {
            let mut bad = good.clone();
            bad[place] ^= change;
            lend(edges, &records, &[0], &bad);
        }
    }
    for count in [0, 1, 4, 7, 8, 12, 15, 16, 17, 20, 23, 24, 25, 28, 48, 49, 256, 280, 65_535u16] {
        let mut bad = good.clone();
        bad[..2].copy_from_slice(&count.to_be_bytes());
        lend(edges, &records, &[], &bad);
    }
    // A count beyond a store that ends with its last piece.
    for count in [25, 28, 65_535u16] {
        let mut bad = good[..used].to_vec();
        bad[..2].copy_from_slice(&count.to_be_bytes());
        lend(edges, &records, &[], &bad);
    }
    for length in [0, 1, 2, 3, 5, 6, 10, 17, 18, 21, 22, 25, 26, 49, 50] {
        lend(edges, &records, &[], &good[..length]);
    }
}

// Refusal 25: the node of a piece is the body of a Freezable of its event, and no other.
fn bodies(edges: &mut Edges) {
    let inner = freezable(1, seq(stop(), freezable(0, control(2, stop()))));
    let records = Records::new(3, &par(freezable(0, inner), seq(control(0, stop()), local(1, freezable(1, stop())))));
    let program = instant::load(&records.bytes()).expect("accepted").0;
    for event in 0..=2 {
        for node in (0..records.nodes.len()).filter(|&node| event == 0 || records.nodes[node.max(1) - 1].kind == 13) {
            let size = state::node_at(&program.root, node).size;
            lend(edges, &records, &[], &store(&[piece(event, node, &vec![0; size])], 100));
        }
    }
    for node in [14, 15, 258, 65_535] {
        lend(edges, &records, &[], &store(&[piece(0, node, &[0; 6])], 100));
    }
    // A number that only its low byte makes a body.
    lend(edges, &records, &[], &store(&[piece(256, 2, &[0; 5])], 100));
}

// Refusal 25: no repetition of count or cap 0 above, not only the nearest; beside it, or of count 1, it says nothing.
fn repetitions(edges: &mut Edges) {
    let frozen = || freezable(0, stop());
    for (program, body) in [
        (repeat(0, frozen()), 2),
        (repeat(1, frozen()), 2),
        (repeat(65_535, repeat(0, frozen())), 3),
        (repeat(0, repeat(1, frozen())), 3),
        (repeat(0, seq(nothing(), control(0, frozen()))), 5),
        (local(0, repeat(0, par(frozen(), stop()))), 4),
        (seq(repeat(0, stop()), frozen()), 4),
        (par(frozen(), repeat(0, stop())), 2),
        (seq(repeat(0, frozen()), frozen()), 3),
        (seq(repeat(0, frozen()), frozen()), 5),
        (seq(frozen(), repeat(0, frozen())), 2),
        (seq(frozen(), repeat(0, frozen())), 5),
        (freezable(0, repeat(0, frozen())), 1),
        (freezable(0, repeat(0, frozen())), 3),
        (repeat_ext(0, 0, frozen()), 2),
        (repeat_ext(15, 0, frozen()), 2),
        (repeat_ext(0, 1, frozen()), 2),
        (repeat_ext(15, 255, frozen()), 2),
        (repeat_ext(3, 0, when(event(0), stop(), frozen())), 4),
        (repeat(2, repeat_ext(3, 0, frozen())), 3),
        (forever(seq(frozen(), stop())), 3),
        (when(event(0), repeat(0, frozen()), frozen()), 3),
        (when(event(0), repeat(0, frozen()), frozen()), 5),
        (until(event(0), frozen(), repeat(0, frozen())), 5),
    ] {
        let records = Records::new(1, &program);
        let size = instant::load(&records.bytes()).map_or(1, |(program, _)| state::node_at(&program.root, body).size);
        let lent = store(&[piece(0, body, &vec![0; size])], 40);
        lend(edges, &records, &[], &lent);
    }
}

// Refusal 25: a piece is at rest as a state of its body alone.
fn pieces_at_rest(edges: &mut Edges) {
    let child = || seq(stop(), stop());
    for body in [
        stop(),
        control(0, child()),
        local(0, child()),
        forever(child()),
        repeat(2, child()),
        repeat_ext(0, 2, child()),
        child(),
        par(child(), child()),
        when(event(0), child(), child()),
        choose(0, child(), child()),
        until(event(0), child(), child()),
        freezable(0, child()),
    ] {
        let records = Records::new(1, &freezable(0, body));
        let nodes = records.nodes.len() - 1;
        for (place, value) in [(0, 1), (0, 2), (3, 1), (4, 3), (16, 3)] {
            if place < 4 * nodes {
                let mut piece = piece(0, 1, &vec![0; nodes]);
                piece.state[place] = value;
                lend(edges, &records, &[], &store(&[piece], 80));
            }
        }
    }
}

// Refusal 13: F bytes behind the pieces, no fewer, also where the instant parks nothing; none is asked for where F is 0.
fn rooms(edges: &mut Edges) {
    for program in [freezable(0, stop()), freezable(0, freezable(0, wait(event(1)))), repeat(3, freezable(1, stop()))] {
        let records = Records::new(2, &program);
        let most = instant::check(&records.bytes()).map_or(0, |figures| figures.f as usize);
        let last = records.nodes.len() - 1;
        for pieces in [vec![], vec![piece(records.nodes[last - 1].argument, last, &[0])]] {
            for free in [0, most - 2, most - 1, most, most + 1] {
                lend(edges, &records, &[0, 1], &store(&pieces, free));
            }
            lend(edges, &records, &[], &store(&pieces, most - 1));
        }
    }
    for program in [nothing(), wait(event(0)), repeat(0, freezable(0, stop()))] {
        for free in [0, 1] {
            lend(edges, &Records::new(1, &program), &[0], &store(&[], free));
        }
    }
}

// 65,537 bytes of a store serve, and no more; what is beyond stays.
fn longest_stores(edges: &mut Edges) {
    let eight = Records::new(1, &freezable(0, stop()));
    let twelve = Records::new(1, &freezable(0, control(0, stop())));
    // 8,190 pieces are 65,520 bytes and leave 15; 8,191 leave 7.
    let nearly = store(&vec![piece(0, 1, &[3]); 8_190], 8);
    lend(edges, &eight, &[0], &nearly);
    let full = store(&vec![piece(0, 1, &[3]); 8_191], 8);
    lend(edges, &eight, &[0], &full);
    edges.take(&eight.bytes(), &full, 0, 16, 4);
    // 5,460 pieces of 12 bytes: with one more 65,532 bytes are in use.
    lend(edges, &twelve, &[0], &store(&vec![piece(0, 1, &[0, 3]); 5_460], 478));
    // The longest store of a line, and one longer; F at its limit in a store as zap_run lends it, once and no more.
    lend(edges, &Records::new(1, &stop()), &[], &store(&[], 65_998));
    lend(edges, &Records::new(1, &stop()), &[], &store(&[], 65_999));
    let most = Records::new(1, &freezable(0, broad(4_095)));
    lend(edges, &most, &[], &store(&[], 16_383));
    let mut begun = store(&[], 32_766);
    lend(edges, &most, &[0], &begun);
    let table = most.bytes();
    let mut fresh = vec![0; 16_384];
    let handed = [0].into_iter().collect();
    let _ = instant::instant(&table, &mut fresh, handed, Values::default(), &mut [], &mut begun);
    lend(edges, &most, &[0], &begun);
}

// 25 and 13 come after all others, 25 first.
fn refused_before(edges: &mut Edges) {
    let records = Records::new(1, &seq(freezable(0, stop()), atom(1)));
    let table = records.bytes();
    let bad = [0, 5, 0];
    let small = [0; 9];
    for lent in [&bad[..], &small[..], &[0]] {
        for (state, events, places) in [
            (&[0; 15][..], &[1][..], 0),
            (&[9; 16], &[1], 0),
            (&[0; 16], &[1], 0),
            (&[0; 16], &[0], 0),
            (&[0; 16], &[], 1),
        ] {
            edges.lent(&table, state, events, Values::default(), places, lent);
        }
        edges.lent(&table[1..], &[0; 16], &[], Values::default(), 1, lent);
        edges.lent(&Records::new(1, &forever(freezable(0, stop()))).bytes(), &[0; 12], &[], Values::default(), 1, lent);
    }
    // Both: a store that isn't good and has no room.
    lend(edges, &records, &[], &store(&[piece(0, 1, &[0])], 0));
    lend(edges, &records, &[], &store(&[piece(0, 2, &[1])], 0));
    lend(edges, &records, &[], &store(&[piece(0, 2, &[0])], 0));
}

/// The pieces that taking is tried with, of the program `two`.
fn several() -> Vec<Piece> {
    vec![
        piece(0, 2, &[0, 3, 0]),
        piece(1, 6, &[3]),
        piece(0, 2, &[2, 0, 3]),
        piece(1, 6, &[0]),
        piece(0, 2, &[3, 0, 0]),
    ]
}

// The newest piece of its event, of whatever node; the gap closed, and behind the new end what stood there.
fn takes(edges: &mut Edges) {
    let table = two().bytes();
    for most in 0..=several().len() {
        for event in [0, 1, 2] {
            edges.take(&table, &store(&several()[..most], most % 2), event, 30, 14);
        }
    }
    // One after the other until none is left.
    for order in [&[0, 0, 0, 0, 1, 1, 1][..], &[1, 0, 1, 0, 0]] {
        let mut left = store(&several(), 5);
        for &event in order {
            edges.take(&table, &left, event, 28, 12);
            let _ = store::take(&table, &mut left, event, &mut [0; 28], &mut [0; 12]);
        }
    }
    // Two bodies of one event: the newest of either.
    let same = Records::new(1, &par(freezable(0, stop()), freezable(0, seq(stop(), stop()))));
    for pieces in [[piece(0, 2, &[3]), piece(0, 4, &[0, 3, 0])], [piece(0, 4, &[2, 0, 3]), piece(0, 2, &[0])]] {
        edges.take(&same.bytes(), &store(&pieces, 1), 0, 28, 12);
    }
    // All configurations and the same V, indexes as they were; numbers of which both bytes count; the deepest body.
    let tests =
        par(wait(and(event(5), event(0))), freezable(2, par(wait(not(event(1))), when(event(6), stop(), stop()))));
    let records = Records::new(800, &seq(tests, wait(or(event(3), event(799)))));
    edges.take(&records.bytes(), &store(&[piece(2, 4, &[0, 0, 2, 0, 3])], 2), 2, 90, 20);
    let mut unused = Records::new(3, &freezable(0, stop()));
    unused.put_cond(&and(event(1), not(event(2))));
    edges.take(&unused.bytes(), &store(&[piece(0, 1, &[3])], 0), 0, 32, 4);
    let far = Records::new(1_024, &par(broad(299), freezable(700, seq(stop(), atom(1)))));
    edges.take(&far.bytes(), &store(&[piece(700, 301, &[0, 3, 0])], 0), 700, 28, 12);
    let large = Records::new(1, &freezable(0, broad(299)));
    edges.take(&large.bytes(), &store(&[piece(0, 1, &[0; 299])], 0), 0, 1_804, 1_196);
    let deep = Records::new(1, &wrapped(63, stop(), |_, t| freezable(0, t)));
    edges.take(&deep.bytes(), &store(&[piece(0, 63, &[3]), piece(0, 40, &[0; 24])], 0), 0, 400, 100);
}

// 1 to 8, 25, 14, 15: each room exact, short and long, and the first of several faults.
fn refused_takes(edges: &mut Edges) {
    let records = two();
    let table = records.bytes();
    let good = store(&several()[..2], 4);
    for (table_room, state_room) in
        [(28, 12), (27, 12), (28, 11), (27, 11), (0, 12), (28, 0), (0, 0), (29, 13), (33_000, 12), (28, 17_000)]
    {
        edges.take(&table, &good, 0, table_room, state_room);
    }
    for (table_room, state_room) in [(16, 4), (15, 4), (16, 3), (17, 5)] {
        edges.take(&table, &good, 1, table_room, state_room);
    }
    // No such piece: events that the table has, hasn't, or can't have; the rooms say nothing then.
    for event in [2, 3, 256, 257, 1_023] {
        edges.take(&table, &good, event, 0, 0);
    }
    for lent in [&[][..], &[0], &[0, 0], &[0, 0, 9], &[0, 1, 0], &[0, 2, 0, 0]] {
        edges.take(&table, lent, 0, 28, 12);
    }
    // A store that isn't good comes before both; a table that isn't before all.
    for event in [2, 3, 1_023] {
        edges.take(&table, &store(&[piece(0, 2, &[0, 1, 0])], 0), event, 0, 0);
    }
    edges.take(&table, &store(&[piece(1, 2, &[0, 0, 0])], 0), 1, 28, 12);
    edges.take(&table, &good[..good.len() - 5], 0, 28, 12);
    edges.take(&table[1..], &[], 0, 0, 0);
    edges.take(&[], &good, 0, 28, 12);
    for program in [forever(freezable(0, stop())), repeat(2_049, freezable(0, stop())), forever(nothing())] {
        edges.take(&Records::new(1, &program).bytes(), &good, 0, 28, 12);
    }
    // Taking asks for no room for F.
    let heavy = Records::new(1, &repeat(2_048, freezable(0, stop())));
    edges.take(&heavy.bytes(), &store(&[piece(0, 2, &[3])], 0), 0, 16, 4);
    edges.take(&Records::new(1, &stop()).bytes(), &[0, 0], 0, 16, 4);
}

// What leaves is a table and a state that run on, with a store of their own.
fn taken_tables(edges: &mut Edges) {
    let install = seq(atom(1), seq(stop(), seq(wait(event(2)), atom(3))));
    for program in [
        seq(freezable(0, install), atom(9)),
        freezable(0, freezable(1, wait(event(2)))),
        freezable(0, repeat(3, seq(freezable(0, stop()), seq(stop(), atom(4))))),
        local(1, freezable(0, par(seq(stop(), generate(1)), when(event(1), atom(1), atom(2))))),
        freezable(0, forever(seq(freezable(1, stop()), seq(atom(1), stop())))),
        par(freezable(0, until(event(1), forever(stop()), atom(7))), wait((0..3).fold(event(2), |c, _| not(c)))),
    ] {
        let records = Records::new(3, &program);
        let table = records.bytes();
        let nodes = records.nodes.len();
        let most = instant::check(&table).map_or(0, |figures| figures.f as usize);
        let mut parked = store(&[], most);
        lend(edges, &records, &[0], &parked);
        let handed = [0].into_iter().collect();
        let _ = instant::instant(&table, &mut vec![0; 4 * nodes], handed, Values::default(), &mut [0; 9], &mut parked);
        let (mut part, mut state) = (vec![0; table.len()], vec![0; 4 * nodes]);
        edges.take(&table, &parked, 0, table.len(), 4 * nodes);
        let taken = store::take(&table, &mut parked, 0, &mut part, &mut state).expect("a piece of event 0");
        part.truncate(taken.table);
        state.truncate(taken.state);
        let figures = instant::check(&part).expect("a taken table is accepted");
        let mut other = store(&[], 4 * figures.f as usize);
        edges.check(&part);
        for events in [&[][..], &[0, 1], &[2]] {
            edges.lent(&part, &state, events, Values::default(), figures.a as usize, &other);
            let handed = events.iter().copied().collect();
            let _ = instant::instant(&part, &mut state, handed, Values::default(), &mut [0; 99], &mut other);
        }
    }
}

// Lines of `take`, and of `instant` with its store, that aren't calls, and some odd ones that are.
fn odd_lines(edges: &mut Edges) {
    let table = "0d0000000002010000000001000200000001000c0000";
    for line in [
        "take".to_string(),
        "take - - 0 -".to_string(),
        "take - - 0 - -".to_string(),
        "take - - 0 - - -".to_string(),
        "takes - - 0 - -".to_string(),
        "take - - - - -".to_string(),
        "take - - 1024 - -".to_string(),
        "take - - 01 - -".to_string(),
        "take - - 0,1 - -".to_string(),
        "take - - 0  -".to_string(),
        "take 0 - 0 - -".to_string(),
        "take - 0 0 - -".to_string(),
        "take - - 0 0 -".to_string(),
        "take - - 0 - 0".to_string(),
        "take - 0A 0 - -".to_string(),
        format!("take {table} 0008000000010300000005 0 {} 00000000", "00".repeat(16)),
        format!("take {table} 0008000000010300000005 1023 - -"),
        format!("take {table} {} 0 - -", "00".repeat(66_001)),
        format!("take {table} 0000 0 {} -", "00".repeat(33_001)),
        format!("take {table} 0000 0 - {}", "00".repeat(17_001)),
    ] {
        edges.0.push(line);
    }
    let zeros = "00".repeat(16);
    for lent in ["", "0", "000", "0G", "0A", "00 00", "0000,", "00000000000000000000", "0000000000000000000"] {
        edges.0.push(format!("instant {table} 0000000000000000 0 {zeros} - {lent}"));
    }
}
