//! Calls 40 to 45: a new graph, and the constructors of leaves, inputs and latches.

use super::making::{self, ARGUMENT, Making, slots_after};
use super::rows::random_id;
use super::{Call, Count, given_otherwise, graph_counts};
use crate::case::{Answer, Case, Outcome};
use crate::construct::Table;
use crate::graph::{INPUTS, LATCHES, NONE, ROWS, SLICES, edge, of_aig};
use crate::refuse::MOST_ROWS;
use crate::rng::Rng;
use crate::tables;
use crate::wellformed::garbage;
use aig::{Aig, AigEdge};

pub const CALLS: &[Call] = &[
    Call {
        number: 40,
        name: "build::new",
        random: random_new,
        expected: new,
        counts: &[],
        ids: &[],
        id_slots: &[],
        edges: &[],
        edge_slots: &[],
    },
    call(41, "build::new_leaf_node", &[], &[]),
    call(42, "build::new_input", &[], &[]),
    call(43, "build::add_input", &[ARGUMENT], &[]),
    call(44, "build::new_latch", &[], &[ARGUMENT, ARGUMENT + 1]),
    call(
        45,
        "build::add_latch",
        &[ARGUMENT],
        &[ARGUMENT + 1, ARGUMENT + 2],
    ),
];

/// The slices that the calls are lent.
const OF_LEAVES: &[usize] = &[ROWS];
const OF_INPUTS: &[usize] = &[ROWS, INPUTS];
const OF_LATCHES: &[usize] = &[ROWS, LATCHES];

const COUNTS: [Count; SLICES] = graph_counts(0, 0);

const fn call(
    number: u64,
    name: &'static str,
    ids: &'static [usize],
    edges: &'static [usize],
) -> Call {
    Call {
        number,
        name,
        random,
        expected: |case| making(case).outcome(case),
        counts: &COUNTS,
        ids,
        id_slots: &[],
        edges,
        edge_slots: &[],
    }
}

fn random_new(rng: &mut Rng, call: u64) -> Case {
    let words = match rng.below(100) {
        0 => rng.between(1_000, 20_000),
        1..20 => rng.between(6, 40),
        _ => rng.below(6),
    };
    let rows = (0..words).map(|_| garbage(rng)).collect();
    given_otherwise(rng, Case::new(call, &[]).lend(ROWS, rows))
}

fn random(rng: &mut Rng, call: u64) -> Case {
    let used = tables::used(rng);
    let mut graph = tables::table(rng, used);
    let free = tables::free(rng, 1);
    tables::lend_free(rng, &mut graph, ROWS, free);
    let lent = match call {
        41 => OF_LEAVES,
        42 | 43 => OF_INPUTS,
        _ => OF_LATCHES,
    };
    for &list in lent.iter().filter(|&&slice| slice != ROWS) {
        tables::lend_list(rng, &mut graph, list);
    }
    let arguments = random_arguments(rng, call, used);
    tables::hostile_used(rng, &mut graph);
    let case = making::case(call, &graph, lent, &arguments);
    let case = given_otherwise(rng, case);
    tables::with_another_slot(rng, case)
}

fn random_arguments(rng: &mut Rng, call: u64, used: usize) -> Vec<u64> {
    let mut arguments = Vec::new();
    if matches!(call, 43 | 45) {
        arguments.push(random_id(rng, used));
    }
    if matches!(call, 44 | 45) {
        for word in [tables::edge(rng, used), random_init(rng, used)] {
            arguments.push(tables::scalar(rng, word));
        }
    }
    arguments
}

fn random_init(rng: &mut Rng, used: usize) -> u32 {
    match rng.below(6) {
        0 | 1 => NONE,
        2 => rng.below(2) as u32,
        3 => tables::boundary_edge(rng, used),
        _ => tables::edge(rng, used),
    }
}

/// Row 0 alone, as the crate has it. It is given no counts: refused, all that come back are 0.
fn new(case: &Case) -> Outcome {
    let graph = of_aig(&Aig::new());
    let rows = case.slot(ROWS).len() / 2;
    let refused = |answer| Outcome::reading(case, answer, &[0; SLICES]);
    match rows {
        0 => refused(Answer::NO_ROOM),
        1..=MOST_ROWS => Outcome {
            answer: Answer::DONE,
            results: graph.counts.to_vec(),
            slots: slots_after(case, &graph),
        },
        _ => refused(Answer::BAD_SIZES),
    }
}

fn making(case: &Case) -> Making {
    let [first, second, third] = std::array::from_fn(|i| case.word(ARGUMENT + i));
    match case.call {
        41 => Making::new(OF_LEAVES, |a| a.new_leaf_node() as u32, Table::leaf),
        42 => Making::new(OF_INPUTS, |a| a.new_input() as u32, Table::input),
        43 => add_input(first),
        44 => new_latch(first, second),
        45 => add_latch(first, second, third),
        call => panic!("call {call} makes no leaf, input or latch"),
    }
}

/// It takes any used id.
fn add_input(id: u32) -> Making {
    let by_crate = move |aig: &mut Aig| aig.add_input(id as usize);
    let by_document = move |table: &mut Table| table.add_input(id);
    Making {
        ids: vec![id],
        ..adding(OF_INPUTS, by_crate, by_document)
    }
}

/// The row that it adds is not used yet: no edge of it is taken.
fn new_latch(next: u32, init: u32) -> Making {
    let by_crate = move |aig: &mut Aig| aig.new_latch(edge(next), init_edge(init)) as u32;
    let by_document = move |table: &mut Table| table.latch(next, init);
    Making {
        edges: latch_edges(next, init),
        ..Making::new(OF_LATCHES, by_crate, by_document)
    }
}

fn add_latch(id: u32, next: u32, init: u32) -> Making {
    let by_crate = move |aig: &mut Aig| aig.add_latch(id as usize, edge(next), init_edge(init));
    let by_document = move |table: &mut Table| table.add_latch(id, next, init);
    Making {
        ids: vec![id],
        edges: latch_edges(next, init),
        ..adding(OF_LATCHES, by_crate, by_document)
    }
}

/// A call that adds an entry alone and answers no id.
fn adding(
    lent: &'static [usize],
    by_crate: impl Fn(&mut Aig) + 'static,
    by_document: impl Fn(&mut Table) + 'static,
) -> Making {
    let by_crate = move |aig: &mut Aig| {
        by_crate(aig);
        0
    };
    let by_document = move |table: &mut Table| {
        by_document(table);
        0
    };
    Making {
        answers: false,
        ..Making::new(lent, by_crate, by_document)
    }
}

/// "the none word as init is no edge"
fn init_edge(init: u32) -> Option<AigEdge> {
    (init != NONE).then(|| edge(init))
}

/// The none word as next is an edge of a row that is never used.
fn latch_edges(next: u32, init: u32) -> Vec<u32> {
    let init = (init != NONE).then_some(init);
    std::iter::once(next).chain(init).collect()
}

#[cfg(test)]
mod tests {
    use super::*;
    use crate::calls::making::Agreement;
    use crate::graph::{LEAF, Lent, ROW_0};
    use std::collections::{HashMap, HashSet};

    #[test]
    fn the_crate_and_document_01_agree_on_random_cases() {
        for call in &CALLS[1..] {
            let mut held = HashMap::new();
            for seed in 0..2_000 {
                let case = (call.random)(&mut Rng::new(seed), call.number);
                *held.entry(making(&case).agreement(&case)).or_insert(0) += 1;
            }
            assert!(held[&Agreement::Held] > 500, "{} {held:?}", call.name);
            assert!(held[&Agreement::NoCrate] > 100, "{} {held:?}", call.name);
            assert!(held[&Agreement::Refused] > 100, "{} {held:?}", call.name);
        }
    }

    #[test]
    fn random_cases_reach_every_answer() {
        for call in CALLS {
            let answers: &[u64] = match call.number {
                40 => &[0, 5],
                41 | 42 => &[0, 1, 5],
                _ => &[0, 1, 4, 5],
            };
            let cases = (0..2_000).map(|seed| (call.random)(&mut Rng::new(seed), call.number));
            let reached: HashSet<u64> = cases.map(|c| (call.expected)(&c).answer.number).collect();
            assert_eq!(reached, answers.iter().copied().collect(), "{}", call.name);
        }
    }

    #[test]
    fn a_new_graph_is_row_0() {
        let after = |words: &[u32]| {
            let outcome = new(&Case::new(40, &[]).lend(ROWS, words.to_vec()));
            (
                outcome.answer,
                outcome.results,
                outcome.slots[0].words.clone(),
            )
        };
        let [first, second] = ROW_0;
        let one_row = vec![1, 0, 0, 0, 0, 0, 0, 0, 0];
        let none = vec![0; SLICES];
        assert_eq!(
            after(&[5, 6, 7]),
            (Answer::DONE, one_row, vec![first, second, 7])
        );
        assert_eq!(after(&[5]), (Answer::NO_ROOM, none.clone(), vec![5]));
        assert_eq!(after(&[]), (Answer::NO_ROOM, none.clone(), vec![]));
        let many = after(&vec![5; 2 * (MOST_ROWS + 1)]);
        assert_eq!((many.0, many.1), (Answer::BAD_SIZES, none));
    }

    /// Row 0 and two leaves, room for one row and one entry of each list, garbage in it.
    fn graph() -> Lent {
        let mut graph = Lent::new();
        graph.words[ROWS].extend(LEAF.repeat(2));
        graph.words[INPUTS] = vec![1];
        graph.words[LATCHES] = vec![2, 0, 1];
        graph.count_all();
        graph.words[ROWS].extend([7, 7, 7]);
        graph.words[INPUTS].push(7);
        graph.words[LATCHES].extend([7; 5]);
        graph
    }

    fn outcome(call: u64, graph: &Lent, arguments: &[u64]) -> Outcome {
        let lent = making(&Case::new(call, &[])).lent;
        let case = making::case(call, graph, lent, arguments);
        let outcome = making(&case).outcome(&case);
        if outcome.answer != Answer::DONE {
            assert_eq!(outcome.slots, case.slots);
            assert_eq!(outcome.results[..SLICES], graph.counts);
        }
        outcome
    }

    /// The first three counts and the id, the words of the free row and those of the list.
    #[track_caller]
    fn done(outcome: Outcome, counts: [u64; 3], id: &[u64], row: [u32; 2], list: &[u32]) {
        assert_eq!(outcome.answer, Answer::DONE);
        assert_eq!(outcome.results, [&counts, &[0; 6][..], id].concat());
        let mut rows = graph().words[ROWS].clone();
        rows[6..8].copy_from_slice(&row);
        assert_eq!(outcome.slots[0].words, rows);
        let after = outcome.slots.get(1).map_or(&[][..], |slot| &slot.words);
        assert_eq!(after, list);
    }

    #[test]
    fn what_is_written() {
        let none = u64::from(NONE);
        let made = |call, arguments: &[u64]| outcome(call, &graph(), arguments);
        done(made(41, &[]), [4, 1, 1], &[3], LEAF, &[]);
        done(made(42, &[]), [4, 2, 1], &[3], LEAF, &[1, 3]);
        done(made(43, &[2]), [3, 2, 1], &[], [7, 7], &[1, 2]);
        let list = [2, 0, 1, 3, 5, NONE, 7, 7];
        done(made(44, &[5, none]), [4, 1, 2], &[3], LEAF, &list);
        let list = [2, 0, 1, 0, 5, 4, 7, 7];
        done(made(45, &[0, 5, 4]), [3, 1, 2], &[], [7, 7], &list);
    }

    #[track_caller]
    fn refused(call: u64, arguments: &[u64], change: fn(&mut Lent), answer: Answer) {
        let mut graph = graph();
        change(&mut graph);
        let outcome = outcome(call, &graph, arguments);
        assert_eq!(outcome.answer, answer);
        assert!(outcome.results[SLICES..].iter().all(|&id| id == 0));
    }

    #[test]
    fn refusals() {
        let none = u64::from(NONE);
        let argument = |call, arguments: &[u64]| {
            refused(call, arguments, |_| {}, Answer::BAD_ARGUMENT);
            // 4 before 5
            refused(call, arguments, full, Answer::BAD_ARGUMENT);
            // 1 before 4
            refused(call, arguments, |g| g.counts[ROWS] = 5, Answer::BAD_SIZES);
            refused(call, arguments, |g| g.counts[ROWS] = 0, Answer::BAD_SIZES);
        };
        argument(43, &[3]);
        argument(43, &[none]);
        argument(44, &[6, none]);
        argument(44, &[none, none]);
        argument(44, &[5, 6]);
        argument(44, &[5, none - 1]);
        argument(45, &[3, 0, 0]);
        argument(45, &[0, 6, 0]);
        argument(45, &[0, 0, 6]);
    }

    fn full(graph: &mut Lent) {
        graph.words[ROWS].truncate(7);
        graph.words[INPUTS].truncate(1);
        graph.words[LATCHES].truncate(5);
    }

    #[test]
    fn refusals_by_room() {
        let good: [&[u64]; 5] = [&[], &[], &[2], &[5, 4], &[2, 5, 4]];
        let list_full = |g: &mut Lent| {
            g.counts[INPUTS] = 2;
            g.counts[LATCHES] = 2;
        };
        let count_above = |g: &mut Lent| {
            g.counts[INPUTS] = 3;
            g.counts[LATCHES] = 3;
        };
        let too_long = |g: &mut Lent| {
            g.words[INPUTS].resize(65_537, 7);
            g.words[LATCHES].resize(3 * 65_537, 7);
        };
        for (call, arguments) in (41..).zip(good) {
            refused(call, arguments, full, Answer::NO_ROOM);
            if call > 41 {
                refused(call, arguments, list_full, Answer::NO_ROOM);
                refused(call, arguments, count_above, Answer::BAD_SIZES);
                refused(call, arguments, too_long, Answer::BAD_SIZES);
            }
        }
        // a list that is not lent does not matter
        let mut graph = graph();
        count_above(&mut graph);
        too_long(&mut graph);
        assert_eq!(outcome(41, &graph, &[]).answer, Answer::DONE);
        // an entry alone needs no row
        for (call, arguments) in [(43, good[2]), (45, good[4])] {
            let mut graph = self::graph();
            graph.words[ROWS].truncate(6);
            assert_eq!(outcome(call, &graph, arguments).answer, Answer::DONE);
        }
    }
}
