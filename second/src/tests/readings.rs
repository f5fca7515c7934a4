//! The readings taken where two careful readers of the documents could differ.

use super::*;
use crate::make::draft::short::*;
use crate::make::draft::NodeRecord;

fn raw(events: u16, nodes: &[(u8, u16, u16)], configs: &[(u8, u8, u16)]) -> Result<Figures, Refusal> {
    instant::check(&Records::raw(events, nodes, configs).bytes())
}

fn configs(records: &[(u8, u8, u16)]) -> Result<Figures, Refusal> {
    raw(2, &[(0, 0, 1)], records)
}

// A1: configuration 0 need not span all of them, but its size must fit its parts.
#[test]
fn a1_size_of_configuration_0() {
    assert_eq!(configs(&[(0, 0, 1), (0, 1, 1)]), figures(0, 0, 1));
    assert_eq!(configs(&[(0, 0, 2), (0, 1, 1)]), refused(4, 0));
}

// A2: a record bad for another reason counts as height 1; a too high one with its true height.
#[test]
fn a2_height() {
    let tower = |nots: u16, kind: u8| {
        let mut records: Vec<(u8, u8, u16)> = (0..nots).map(|above| (1, 0, nots + 1 - above)).collect();
        records.push((kind, 0, 1));
        configs(&records)
    };
    assert_eq!(tower(15, 0), figures(0, 0, 1));
    assert_eq!(tower(16, 0), refused(4, 0));
    assert_eq!(tower(20, 0), refused(4, 0));
    assert_eq!(tower(15, 4), refused(4, 15));
    assert_eq!(tower(16, 4), refused(4, 0));
    let broken = |place: usize| {
        let mut records: Vec<(u8, u8, u16)> = (0..20).map(|above| (1, 0, 21 - above)).collect();
        records.push((0, 0, 1));
        records[place].1 = 1;
        configs(&records)
    };
    assert_eq!(broken(10), refused(4, 10));
    assert_eq!(broken(15), refused(4, 15));
    assert_eq!(broken(16), refused(4, 0));
}

// A3: the second child stands behind the first's written size; sums are unbounded.
#[test]
fn a3_written_sizes() {
    assert_eq!(raw(1, &[(3, 0, 5), (3, 0, 2), (0, 0, 2), (0, 0, 2), (0, 0, 65_535)], &[]), refused(5, 1));
    // A written size of 0 makes the second part the first again: the whole is good, the part bad.
    assert_eq!(configs(&[(2, 0, 1), (0, 0, 0)]), refused(4, 1));
}

// A4: a record is judged by its children's written sizes, not by whether they are good.
#[test]
fn a4_lowest_bad_record() {
    assert_eq!(raw(1, &[(5, 0, 3), (1, 0, 2), (0, 0, 1)], &[]), refused(5, 1));
}

// A5: a test may name the middle of another configuration.
#[test]
fn a5_middle_of_a_configuration() {
    let mut records = Records::new(2, &par(wait(and(event(0), event(1))), wait(event(0))));
    assert_eq!(records.configs.len(), 4);
    records.nodes[2].argument = 2;
    Play::of(&records).instant(&[1], 2, "STOP", &[1], &[]);
    let mut play = Play::of(&records);
    play.call(&[1]).unwrap();
    assert_eq!(play.phases(), [0, 0, 3]);
}

// A6: arguments and event bytes that have no use are 0.
#[test]
fn a6_unused_numbers() {
    for kind in [0, 1] {
        assert_eq!(raw(1, &[(kind, 1, 1)], &[]), refused(5, 0));
    }
    for kind in [3, 4] {
        assert_eq!(raw(1, &[(kind, 1, 3), (1, 0, 1), (1, 0, 1)], &[]), refused(5, 0));
    }
    assert_eq!(raw(1, &[(5, 1, 2), (1, 0, 1)], &[]), refused(5, 0));
    for kind in [2, 3] {
        assert_eq!(configs(&[(kind, 1, 3), (0, 0, 1), (0, 0, 1)]), refused(4, 0));
    }
    assert_eq!(configs(&[(1, 1, 2), (0, 0, 1)]), refused(4, 0));
    let mut records = Records::new(1, &stop());
    records.nodes[0] = NodeRecord { zero: 1, ..NodeRecord::new(1, 0, 1) };
    assert_eq!(instant::check(&records.bytes()), refused(5, 0));
}

// A7: m is at most 2 where the body stops.
#[test]
fn a7_repeat_over_a_stopping_body() {
    assert_eq!(check(1, repeat(0, stop())), figures(0, 0, 1));
    assert_eq!(check(1, repeat(1, stop())), figures(0, 0, 2));
    assert_eq!(check(1, repeat(2, stop())), figures(0, 0, 3));
    assert_eq!(check(1, repeat(65_535, stop())), figures(0, 0, 3));
    assert_eq!(check(1, repeat(4, nothing())), figures(0, 0, 5));
}

// A8: 0 times anything is 0; 6 and 7 still hold below.
#[test]
fn a8_repeat_0() {
    let heavy = || repeat(65_535, repeat(65_535, generate(0)));
    assert_eq!(check(1, repeat(0, heavy())), figures(0, 0, 1));
    let tower = |times| (0..times).fold(atom(1), |inner, _| repeat(65_535, inner));
    assert_eq!(check(1, repeat(0, tower(62))), figures(0, 0, 1));
    assert_eq!(check(1, repeat(0, tower(63))), refused(6, 64));
    assert_eq!(check(1, tower(62)), refused(8, 0));
    assert_eq!(check(1, repeat(0, forever(nothing()))), refused(7, 1));
}

// A10: all configurations before all nodes, 6 to 8 only where every record is good.
#[test]
fn a10_order_of_judging() {
    let mut records = Records::new(1, &seq(forever(nothing()), (0..64).fold(wait(event(0)), |t, _| control(0, t))));
    assert_eq!(instant::check(&records.bytes()), refused(6, 66));
    records.nodes[67].argument = 1;
    assert_eq!(instant::check(&records.bytes()), refused(5, 67));
    records.configs[0].kind = 4;
    assert_eq!(instant::check(&records.bytes()), refused(4, 0));
}

// A11: the lowest Loop whose body doesn't stop; a Loop counts as stopping.
#[test]
fn a11_lowest_loop() {
    assert_eq!(check(1, forever(forever(nothing()))), refused(7, 1));
    assert_eq!(check(1, seq(forever(stop()), par(forever(nothing()), forever(nothing())))), refused(7, 4));
}

// A12: 2 before 3 always.
#[test]
fn a12_ranges_before_distances() {
    let mut table = Records::new(1, &nothing()).bytes();
    table[6..8].copy_from_slice(&[0x10, 0x01]);
    assert_eq!(instant::check(&table), refused(2, 0));
    table[6..8].copy_from_slice(&[0x10, 0x00]);
    assert_eq!(instant::check(&table), refused(3, 0));
}

// B1: Repeat's count is 0 in phase 0 and below the argument in phase 1.
#[test]
fn b1_repeat_counts() {
    let blame = |times, phase, count| Play::from(1, repeat(times, stop()), &[(0, phase), (3, count)]).call(&[]);
    assert_eq!(blame(3, 0, 1), refused(10, 0));
    assert_eq!(blame(3, 1, 3), refused(10, 0));
    assert!(blame(3, 1, 2).is_ok());
    assert!(blame(1, 1, 0).is_ok());
    assert_eq!(blame(0, 1, 0), refused(10, 0));
}

// B2 and B3: only the lowest blamed node counts; a TERM flag over a child not in 3 blames the Par.
#[test]
fn b2_b3_lowest_blamed() {
    let program = || seq(par(stop(), local(0, stop())), stop());
    let mut play = Play::from(1, program(), &[(5, 2), (12, 1)]);
    assert_eq!(play.call(&[]), refused(10, 1));
    let mut play = Play::from(1, program(), &[(5, 2), (8, 3), (12, 1)]);
    assert_eq!(play.call(&[]), refused(10, 3));
    let mut play = Play::from(1, program(), &[(5, 10), (8, 3), (12, 3)]);
    assert_eq!(play.call(&[]), refused(10, 1));
    let mut play = Play::from(1, program(), &[(12, 1), (20, 1)]);
    assert_eq!(play.call(&[]), refused(10, 0));
}

// B4: at rest, though never reached from fresh.
#[test]
fn b4_at_rest_but_not_reached() {
    Play::from(1, par(atom(1), atom(2)), &[(4, 3)]).instant(&[], 1, "TERM", &[], &[2]);
    Play::from(1, seq(atom(1), atom(2)), &[(4, 3)]).instant(&[], 1, "TERM", &[], &[2]);
    let looped = || forever(seq(atom(1), stop()));
    let mut play = Play::from(1, looped(), &[(0, 1)]);
    play.instant(&[], 1, "STOP", &[], &[1]);
    assert_eq!(play.phases(), [1, 2, 0, 3]);
    let mut play = Play::from(1, looped(), &[(0, 1), (4, 3)]);
    play.instant(&[], 1, "STOP", &[], &[1]);
    assert_eq!(play.phases(), [1, 2, 0, 3]);
    let mut play = Play::from(1, repeat(3, atom(1)), &[(0, 1), (3, 2), (4, 3)]);
    play.instant(&[], 1, "TERM", &[], &[1, 1]);
}

// B5: a chosen child that became Nothing with STOP keeps the chooser's phase.
#[test]
fn b5_chosen_child_in_3() {
    let mut play = Play::new(1, seq(nothing(), stop()));
    play.instant(&[], 1, "STOP", &[], &[]);
    assert_eq!(play.phases(), [2, 0, 3]);
    let mut play = Play::new(1, when(event(0), stop(), nothing()));
    play.instant(&[0], 1, "STOP", &[0], &[]);
    assert_eq!(play.phases(), [1, 3, 0]);
    let mut play = Play::new(1, until(event(0), stop(), stop()));
    play.instant(&[0], 1, "STOP", &[0], &[]);
    assert_eq!(play.phases(), [2, 0, 3]);
}

// B6: a fresh Nothing chosen at the end (rules 18, 20, 32) is in phase 0.
#[test]
fn b6_fresh_nothing_chosen_at_the_end() {
    let mut play = Play::new(1, when(not(event(0)), nothing(), stop()));
    play.instant(&[], 2, "STOP", &[], &[]);
    assert_eq!(play.phases(), [1, 0, 0]);
    let mut play = Play::new(1, when(event(0), stop(), nothing()));
    play.instant(&[], 2, "STOP", &[], &[]);
    assert_eq!(play.phases(), [2, 0, 0]);
    let mut play = Play::new(1, until(not(event(0)), stop(), nothing()));
    play.instant(&[], 2, "STOP", &[], &[]);
    assert_eq!(play.phases(), [2, 0, 0]);
}

// B7: Par's branches and node 0 keep phase 3 after TERM; a Seq in 2 wants all of its first zero.
#[test]
fn b7_who_keeps_phase_3() {
    let mut play = Play::new(1, par(seq(atom(1), control(0, nothing())), seq(par(nothing(), atom(2)), stop())));
    play.instant(&[0], 1, "STOP", &[0], &[1, 2]);
    assert_eq!(play.phases(), [0, 3, 0, 0, 0, 2, 0, 0, 0, 3]);
    assert_eq!(play.state[1], 2);
    play.instant(&[], 1, "TERM", &[], &[]);
    assert_eq!(play.phases(), [3, 0, 0, 0, 0, 0, 0, 0, 0, 0]);
    assert_eq!(play.state[1], 0);
    let mut play = Play::from(1, seq(seq(stop(), stop()), stop()), &[(0, 2), (12, 3)]);
    assert_eq!(play.call(&[]), refused(10, 0));
}

// B8: bytes past 4N are neither looked at nor changed.
#[test]
fn b8_longer_rooms() {
    let table = Records::new(1, &stop()).bytes();
    let mut state = [0, 0, 0, 0, 7, 7];
    assert!(instant::instant(&table, &mut state, Events::none(), Values::default(), &mut [], &mut [0; 2]).is_ok());
    assert_eq!(state, [3, 0, 0, 0, 7, 7]);
    let mut state = [9, 9, 9, 9, 9];
    assert_eq!(instant::start(&table, &mut state), Ok(()));
    assert_eq!(state, [0, 0, 0, 0, 9]);
    assert_eq!(instant::start(&table, &mut state[..3]), refused(9, 0));
}

// B9: a begun Loop or Repeat returns to phase 0 only by clearing.
#[test]
fn b9_begun_loops_stay_begun() {
    let mut play = Play::new(1, forever(stop()));
    for _ in 0..3 {
        play.instant(&[], 1, "STOP", &[], &[]);
        assert_eq!(play.phases(), [1, 3]);
    }
    let mut play = Play::new(1, repeat(2, stop()));
    play.instant(&[], 1, "STOP", &[], &[]);
    assert_eq!(play.state, [1, 0, 0, 1, 3, 0, 0, 0]);
    play.instant(&[], 1, "STOP", &[], &[]);
    assert_eq!(play.state, [1, 0, 0, 0, 3, 0, 0, 0]);
    play.instant(&[], 1, "TERM", &[], &[]);
    assert_eq!(play.state, [3, 0, 0, 0, 0, 0, 0, 0]);
}

// C1: generating a present event still sets move.
#[test]
fn c1_move_again() {
    Play::new(2, par(wait(event(1)), generate(0))).instant(&[0], 3, "STOP", &[0], &[]);
}

// C2: a Generate of a local event sets move for the whole program.
#[test]
fn c2_local_move() {
    Play::new(2, par(wait(event(1)), local(0, generate(0)))).instant(&[], 3, "STOP", &[], &[]);
}

// C3: every pass from node 0 counts, 1 to G + 2.
#[test]
fn c3_most_passes() {
    let meeting = local(0, par(wait(event(0)), generate(0)));
    let mut play = Play::new(2, par(repeat(4_094, meeting), wait(event(1))));
    play.instant(&[], 4_096, "STOP", &[], &[]);
}

// C6: an Until* first reached in the pass after the end is read in that same pass.
#[test]
fn c6_until_star_after_the_end() {
    let mut play = Play::new(2, until(not(event(1)), wait(event(0)), atom(1)));
    play.instant(&[], 2, "STOP", &[], &[]);
    assert_eq!(play.phases(), [2, 0, 0]);
    play.instant(&[], 1, "TERM", &[], &[1]);
}

// C7 and C8: a Local hides a handed-in event inside; the report keeps it.
#[test]
fn c7_c8_report() {
    let mut play = Play::new(2, local(0, par(wait(event(0)), generate(1))));
    play.instant(&[0], 3, "STOP", &[0, 1], &[]);
    assert_eq!(play.phases(), [0, 0, 0, 3]);
}

// C10: A places always, also where this instant writes fewer.
#[test]
fn c10_row_for_all_atoms() {
    let table = Records::new(1, &seq(stop(), atom(1))).bytes();
    let mut state = [0; 12];
    assert_eq!(
        instant::instant(&table, &mut state, Events::none(), Values::default(), &mut [], &mut [0; 2]),
        refused(12, 0)
    );
    assert_eq!(state, [0; 12]);
    let mut row = [5, 6];
    assert!(instant::instant(&table, &mut state, Events::none(), Values::default(), &mut row[..1], &mut [0; 2]).is_ok());
    assert_eq!(row, [5, 6]);
    assert!(instant::instant(&table, &mut state, Events::none(), Values::default(), &mut row, &mut [0; 2]).is_ok());
    assert_eq!(row, [1, 6]);
}

// C11: with several faults the lowest number wins.
#[test]
fn c11_lowest_number() {
    let table = Records::new(2, &seq(atom(1), stop())).bytes();
    let call = |state: &mut [u8], events: &[u16], row: &mut [u16]| {
        instant::instant(&table, state, set(events), Values::default(), row, &mut [0; 2])
    };
    assert_eq!(call(&mut [9; 11], &[7, 2], &mut []), refused(9, 0));
    assert_eq!(call(&mut [9; 12], &[7, 2], &mut []), refused(10, 0));
    assert_eq!(call(&mut [0; 12], &[7, 2], &mut []), refused(11, 2));
    assert_eq!(call(&mut [0; 12], &[1], &mut []), refused(12, 0));
}

// The greatest table is accepted, one byte more is not.
#[test]
fn greatest_table() {
    let mut records = Records::raw(256, &[(0, 0, 1); 4096], &[(0, 255, 1); 2048]);
    // Pairs of leaves under a flat tree of Par: 2,047 pairs, and one Control to make the number even.
    fn flat(nodes: usize) -> Draft {
        match nodes {
            1 => nothing(),
            2 => control(255, nothing()),
            _ => par(flat((nodes - 1) / 2), flat(nodes - 1 - (nodes - 1) / 2)),
        }
    }
    records.nodes = Records::new(256, &flat(4096)).nodes;
    let table = records.bytes();
    assert_eq!(table.len(), 32_778);
    assert_eq!(instant::check(&table), figures(0, 0, 4_096));
    assert_eq!(instant::check(&[&[0], &table[..]].concat()), refused(1, 0));
}
