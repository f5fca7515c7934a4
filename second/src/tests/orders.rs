//! L6: the order in which the branches of Par run doesn't choose the outcome. Its examples, typed in, and all orders of many instants.

use super::*;
use crate::make::draft::short::*;
use crate::make::{edges, orders, parked, values};
use crate::store;
use crate::words::{event as number, read_hex};

/// What no order may change: event set, finished answer, end state, the atoms and the pieces parked (L8), however ordered, and, more than
/// L6 asks, what is waited for.
#[derive(Debug, PartialEq)]
struct Outcome {
    events: Vec<u16>,
    finished: bool,
    state: Vec<u8>,
    atoms: Vec<u16>,
    parked: Vec<(u16, usize, Vec<u8>)>,
    waits: Option<Wait>,
}

/// The outcome of an instant and its passes, each Par with two suspended branches asking which one runs first.
fn outcome(
    table: &[u8],
    state: &[u8],
    (handed, values): (Events, Values),
    second_first: &mut dyn FnMut() -> bool,
) -> (Outcome, usize) {
    let (mut state, mut atoms) = (state.to_vec(), vec![0; 4_096]);
    let (program, figures) = instant::load(table).expect("accepted");
    let mut store = vec![0; 2 + figures.f as usize];
    let report = instant::in_any_order(table, &mut state, handed, values, &mut atoms, &mut store, second_first)
        .expect("no refusal");
    atoms.truncate(report.atoms);
    atoms.sort();
    let pieces = store::read(&program.root, &store).expect("a good store").into_iter();
    let mut parked: Vec<_> = pieces.map(|piece| (piece.event, piece.body, piece.state)).collect();
    parked.sort();
    let events = report.events.rising().collect();
    (Outcome { events, finished: report.finished, state, atoms, parked, waits: report.waits }, report.passes)
}

/// The outcome of every order and its passes, or of the first so many: each sequence of choices in its turn.
fn orders_of(table: &[u8], state: &[u8], handed: (Events, Values), most: usize) -> Vec<(Outcome, usize)> {
    let mut found = vec![];
    let mut choices: Vec<bool> = vec![];
    while found.len() < most {
        let mut asked = 0;
        let mut second_first = || {
            if asked == choices.len() {
                choices.push(false);
            }
            asked += 1;
            choices[asked - 1]
        };
        found.push(outcome(table, state, handed, &mut second_first));
        while choices.last() == Some(&true) {
            choices.pop();
        }
        match choices.last_mut() {
            Some(last) => *last = true,
            None => break,
        }
    }
    found
}

/// A program whose every order in the first instant has this outcome, waiting for nothing, and takes these passes, the first branch first leading.
fn any_order(events: u16, program: Draft, handed: &[u16], wanted: (&[u16], bool, &[u8], &[u16]), passes: &[usize]) {
    let table = Records::new(events, &program).bytes();
    let (present, finished, state, atoms) = wanted;
    let orders = orders_of(&table, &vec![0; state.len()], (set(handed), Values::default()), 1_000);
    let (events, state, atoms) = (present.to_vec(), state.to_vec(), atoms.to_vec());
    let wanted = Outcome { events, finished, state, atoms, parked: vec![], waits: None };
    assert!(orders.iter().all(|(outcome, _)| *outcome == wanted), "{orders:?}");
    assert_eq!(orders.iter().map(|(_, passes)| *passes).collect::<Vec<_>>(), passes);
}

/// A finished program of this many nodes.
fn done(nodes: usize) -> Vec<u8> {
    let mut state = vec![0; 4 * nodes];
    state[0] = 3;
    state
}

/// The second branch of example 2.
fn p_left() -> Draft {
    seq(wait(event(0)), seq(atom(7), generate(1)))
}

// Examples 1 and 2: P and P with its branches exchanged, one pass or two.
#[test]
fn p_in_both_orders() {
    any_order(2, par(p_left(), wait(event(1))), &[0], (&[0, 1], true, &done(7), &[7]), &[1, 2]);
    any_order(2, par(wait(event(1)), p_left()), &[0], (&[0, 1], true, &done(7), &[7]), &[2, 1]);
}

// Examples 3 and 4: Until* waits for the other branch, or finds its event at once.
#[test]
fn until_in_both_orders() {
    let until = || until(event(0), stop(), atom(3));
    any_order(1, par(until(), generate(0)), &[], (&[0], true, &done(5), &[3]), &[2, 1]);
    any_order(1, par(generate(0), until()), &[], (&[0], true, &done(5), &[3]), &[1, 2]);
}

// Examples 5 and 6: first unknown, then false early, or false early at once.
#[test]
fn absence_in_both_orders() {
    let first = [0, 8, 0, 0, 0, 0, 0, 0, 3, 0, 0, 0];
    any_order(1, par(wait(not(event(0))), generate(0)), &[], (&[0], false, &first, &[]), &[2, 1]);
    let second = [0, 2, 0, 0, 3, 0, 0, 0, 0, 0, 0, 0];
    any_order(1, par(generate(0), wait(not(event(0)))), &[], (&[0], false, &second, &[]), &[1, 2]);
}

// Example 7: the order of atoms follows the branches, how often each occurs doesn't.
#[test]
fn atoms_in_both_orders() {
    let program = || par(seq(generate(0), atom(1)), atom(2));
    any_order(1, program(), &[], (&[0], true, &done(5), &[1, 2]), &[1, 1]);
    let table = Records::new(1, &program()).bytes();
    for (second_first, atoms) in [(false, [1, 2]), (true, [2, 1])] {
        let mut row = [0; 2];
        let answer = instant::in_any_order(
            &table,
            &mut [0; 20],
            set(&[]),
            Values::default(),
            &mut row,
            &mut [0; 2],
            &mut || second_first,
        );
        assert!(answer.is_ok());
        assert_eq!(row, atoms);
    }
}

// The lower node is named, also where the other branch's test was met first. The quiet pass and the pass after the end have a choice each.
#[test]
fn waits_in_both_orders() {
    let table = Records::new(2, &par(wait(event(1)), wait(event(0)))).bytes();
    let orders = orders_of(&table, &[0; 12], (set(&[]), Values::default()), 1_000);
    assert_eq!(orders.len(), 4);
    let waits = Some(Wait { node: 1, event: 1 });
    assert!(orders.iter().all(|(outcome, passes)| outcome.waits == waits && *passes == 2));
}

// L6.1: the choice is made anew in each pass, also in the one after the end; a Par with one suspended branch makes none.
#[test]
fn when_a_choice_is_made() {
    let asked = |program: Draft| {
        let records = Records::new(2, &program);
        let mut times = 0;
        outcome(&records.bytes(), &vec![0; 4 * records.nodes.len()], (Events::none(), Values::default()), &mut || {
            times += 1;
            false
        });
        times
    };
    // The quiet pass and the pass after the end.
    assert_eq!(asked(par(wait(event(0)), wait(event(1)))), 2);
    // One pass more, for the move.
    assert_eq!(asked(par(wait(event(0)), seq(generate(1), wait(event(0))))), 3);
    // From the second pass on the first branch alone is suspended.
    assert_eq!(asked(par(wait(event(0)), generate(1))), 1);
    assert_eq!(asked(par(stop(), nothing())), 1);
    // Two of them in a pass; the inner one isn't asked again once both of its branches have ended.
    assert_eq!(asked(par(wait(event(0)), par(wait(event(1)), wait(event(0))))), 4);
    assert_eq!(asked(par(wait(event(0)), par(nothing(), atom(1)))), 2);
}

// Every order, or the first 64 of them, of random and edge instants has one outcome for equal values (L14); often not in the same passes.
#[test]
fn one_outcome() {
    let (mut instants, mut many, mut unlike, mut waiting, mut parking) = (0, 0, 0, 0, 0);
    let random = orders::lines(3_000, 4).chain(values::lines(2_000, 4)).chain(parked::lines(2_000, 4));
    for line in random.chain(edges::lines()) {
        let words: Vec<&str> = line.split(' ').collect();
        let ["instant", table, state, events, values, _, _] = words[..] else { continue };
        let [Some(table), Some(state), Some(values)] = [table, state, values].map(|word| read_hex(word.as_bytes()))
        else {
            continue;
        };
        let Ok(values) = Values::try_from(values) else { continue };
        let handed: Events = events.split(',').filter_map(|word| number(word.as_bytes())).collect();
        let mut store = [0; 2 + 16_384];
        if table.len() > 1_000
            || instant::instant(&table, &mut state.clone(), handed, values, &mut [0; 4_096], &mut store).is_err()
        {
            continue;
        }
        let orders = orders_of(&table, &state, (handed, values), 64);
        assert!(orders.iter().all(|(outcome, _)| *outcome == orders[0].0), "{line}");
        instants += 1;
        many += usize::from(orders.len() > 1);
        unlike += usize::from(orders.iter().any(|(_, passes)| *passes != orders[0].1));
        waiting += usize::from(orders[0].0.waits.is_some());
        parking += usize::from(orders.len() > 1 && orders[0].0.parked.len() > 1);
    }
    assert!(
        instants > 2_500 && many > 1_000 && unlike > 200 && waiting > 1_000 && parking > 100,
        "{instants} {many} {unlike} {waiting} {parking}"
    );
}
