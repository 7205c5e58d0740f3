//! Calls 50 to 59: the constructors of gates, from two edges or from a list of them.

use super::making::{self, ARGUMENT, Making};
use super::{Call, Count, LIST, given_otherwise, graph_counts};
use crate::case::Case;
use crate::construct::Table;
use crate::graph::{Lent, ROWS, SLICES, code, edge};
use crate::rng::Rng;
use crate::tables;
use crate::wellformed::{self, FULL};
use aig::{Aig, AigEdge};

pub const CALLS: &[Call] = &[
    of_two(50, "build::trivial_new_and_node"),
    of_two(51, "build::new_and_node"),
    of_two(52, "build::trivial_new_or_node"),
    of_two(53, "build::new_or_node"),
    of_list(54, "build::trivial_new_ands_node"),
    of_list(55, "build::new_ands_node"),
    of_list(56, "build::trivial_new_ors_node"),
    of_list(57, "build::new_ors_node"),
    of_two(58, "build::new_imply_node"),
    of_two(59, "build::new_eq_node"),
];

const COUNTS: [Count; SLICES] = graph_counts(0, 0);

const fn of_two(number: u64, name: &'static str) -> Call {
    Call {
        number,
        name,
        random: random_two,
        expected: |case| making(case).outcome(case),
        counts: &COUNTS,
        ids: &[],
        id_slots: &[],
        edges: &[ARGUMENT, ARGUMENT + 1],
        edge_slots: &[],
    }
}

const fn of_list(number: u64, name: &'static str) -> Call {
    Call {
        random: random_list,
        edges: &[],
        edge_slots: &[LIST],
        ..of_two(number, name)
    }
}

fn making(case: &Case) -> Making {
    match case.call {
        50 => two(case, Aig::trivial_new_and_node, Table::trivial_and),
        51 => two(case, Aig::new_and_node, Table::and),
        52 => two(case, Aig::trivial_new_or_node, Table::trivial_or),
        53 => two(case, Aig::new_or_node, Table::or),
        54 => list(case, Aig::trivial_new_ands_node, Table::trivial_ands),
        55 => list(case, Aig::new_ands_node, Table::ands),
        56 => list(case, Aig::trivial_new_ors_node, Table::trivial_ors),
        57 => list(case, Aig::new_ors_node, Table::ors),
        58 => two(case, Aig::new_imply_node, Table::imply),
        59 => two(case, Aig::new_eq_node, Table::eq),
        call => panic!("call {call} makes no gate"),
    }
}

fn two(
    case: &Case,
    by_crate: fn(&mut Aig, AigEdge, AigEdge) -> AigEdge,
    by_document: fn(&mut Table, u32, u32) -> u32,
) -> Making {
    let (a, b) = (case.word(ARGUMENT), case.word(ARGUMENT + 1));
    let by_crate = move |aig: &mut Aig| code(by_crate(aig, edge(a), edge(b)));
    let by_document = move |table: &mut Table| by_document(table, a, b);
    Making {
        edges: vec![a, b],
        ..Making::new(&[ROWS], by_crate, by_document)
    }
}

fn list(
    case: &Case,
    by_crate: fn(&mut Aig, Vec<AigEdge>) -> AigEdge,
    by_document: fn(&mut Table, &[u32]) -> u32,
) -> Making {
    let codes = case.slot(LIST).to_vec();
    let edges: Vec<AigEdge> = codes.iter().map(|&code| edge(code)).collect();
    let by_crate = move |aig: &mut Aig| code(by_crate(aig, edges.clone()));
    let by_document = {
        let codes = codes.clone();
        move |table: &mut Table| by_document(table, &codes)
    };
    Making {
        edges: codes,
        ..Making::new(&[ROWS], by_crate, by_document)
    }
}

fn random_two(rng: &mut Rng, call: u64) -> Case {
    let used = tables::used(rng);
    let edges = two_edges(rng, used);
    let scalars = edges.map(|edge| tables::scalar(rng, edge));
    random(rng, used, call, &scalars, None)
}

fn random_list(rng: &mut Rng, call: u64) -> Case {
    let length = match rng.below(800) {
        0 | 1 => rng.pick(&[FULL, FULL, FULL + 1]),
        2..10 => rng.between(1_000, 9_000),
        10..40 => rng.between(20, 200),
        40..200 => rng.between(4, 12),
        length => length % 4,
    };
    // the program has room for little more than one row an edge
    let used = tables::used(rng).min(if length < FULL { 20_000 } else { 12 });
    let edges = list_of_edges(rng, used, length);
    random(rng, used, call, &[], Some(edges))
}

/// Room is lent by what the call needs.
fn random(
    rng: &mut Rng,
    used: usize,
    call: u64,
    arguments: &[u64],
    list: Option<Vec<u32>>,
) -> Case {
    let mut graph = tables::table(rng, used);
    let case = |graph: &Lent| {
        let case = making::case(call, graph, &[ROWS], arguments);
        match list.clone() {
            Some(edges) => case.lend(LIST, edges),
            None => case,
        }
    };
    let need = making(&case(&graph)).need(&graph, ROWS);
    let free = tables::free(rng, need);
    tables::lend_free(rng, &mut graph, ROWS, free);
    tables::hostile_used(rng, &mut graph);
    let case = given_otherwise(rng, case(&graph));
    tables::with_another_slot(rng, case)
}

/// Everything that folds, and what does not, in either order.
fn two_edges(rng: &mut Rng, used: usize) -> [u32; 2] {
    let (a, b) = (tables::edge(rng, used), tables::edge(rng, used));
    let constant = rng.below(2) as u32;
    let (smaller, larger) = (a.min(b), a.max(b));
    match rng.below(12) {
        0 => [a, a],
        1 => [a, a ^ 1],
        2 => [constant, a],
        3 => [a, constant],
        4 => [constant, rng.below(2) as u32],
        5..8 => [larger, smaller],
        8..10 => [smaller, larger],
        _ => [a, b],
    }
}

/// From all edges, from those of no constant (a long list folds little), or from a few; then at
/// some places a constant or an edge that may not be used.
fn list_of_edges(rng: &mut Rng, used: usize, length: usize) -> Vec<u32> {
    let few = few_edges(rng, used);
    let from = rng.pick(&[0, 1, 1, 2]);
    let mut edges: Vec<u32> = (0..length)
        .map(|_| match from {
            0 => wellformed::edge(rng, used),
            1 if used > 1 => rng.between(2, 2 * used - 1) as u32,
            _ => rng.pick(&few),
        })
        .collect();
    for _ in 0..rng.pick(&[0, 0, 1, 2]) {
        if let Some(at) = place(rng, length) {
            edges[at] = rng.below(2) as u32;
        }
    }
    if rng.one_in(5)
        && let Some(at) = place(rng, length)
    {
        edges[at] = tables::boundary_edge(rng, used);
    }
    edges
}

/// One edge again and again, or with its complement, with a constant, or with another.
fn few_edges(rng: &mut Rng, used: usize) -> Vec<u32> {
    let (a, b) = (tables::edge(rng, used), tables::edge(rng, used));
    let constant = rng.below(2) as u32;
    match rng.below(6) {
        0 => vec![a],
        1 => vec![a, a, a, a ^ 1],
        2 => vec![a, constant],
        3 => vec![constant],
        4 => vec![a, b, constant],
        _ => vec![a, b, b ^ 1],
    }
}

/// The first place of a list, the last or any.
fn place(rng: &mut Rng, length: usize) -> Option<usize> {
    let last = length.checked_sub(1)?;
    Some(match rng.below(4) {
        0 => 0,
        1 => last,
        _ => rng.below(length),
    })
}

#[cfg(test)]
mod tests {
    use super::*;
    use crate::calls::making::Agreement;
    use crate::case::Answer;
    use crate::graph::LEAF;
    use std::collections::{HashMap, HashSet};

    const OF_TWO: [u64; 6] = [50, 51, 52, 53, 58, 59];
    const OF_LIST: [u64; 4] = [54, 55, 56, 57];

    /// Row 0, leaves, and free rows.
    fn leaves(count: usize, free: usize) -> Lent {
        let mut graph = Lent::new();
        graph.words[ROWS].extend(LEAF.repeat(count));
        graph.count_all();
        graph.words[ROWS].extend([7].repeat(2 * free));
        graph
    }

    fn of_two(call: u64, graph: &Lent, edges: [u32; 2]) -> Case {
        making::case(call, graph, &[ROWS], &edges.map(u64::from))
    }

    fn of_list(call: u64, graph: &Lent, edges: &[u32]) -> Case {
        making::case(call, graph, &[ROWS], &[]).lend(LIST, edges.to_vec())
    }

    /// Every pair of edges and every list of up to four, of row 0 with none, one, two leaves.
    #[test]
    fn the_crate_and_document_01_agree_on_every_small_case() {
        for count in 0..3 {
            let graph = leaves(count, 0);
            let codes = 0..2 * (count as u32 + 1);
            let mut lists = vec![vec![]];
            for length in 0..=4 {
                for edges in &lists {
                    for call in OF_LIST {
                        let case = of_list(call, &graph, edges);
                        assert_eq!(making(&case).agreement(&case), Agreement::Held);
                    }
                    if let [a, b] = edges[..] {
                        for call in OF_TWO {
                            let case = of_two(call, &graph, [a, b]);
                            assert_eq!(making(&case).agreement(&case), Agreement::Held);
                        }
                    }
                }
                assert_eq!(lists.len(), codes.len().pow(length));
                let longer = |edges: &Vec<u32>| {
                    let edges = edges.clone();
                    codes.clone().map(move |e| [&edges[..], &[e]].concat())
                };
                lists = lists.iter().flat_map(longer).collect();
            }
        }
    }

    #[test]
    fn the_crate_and_document_01_agree_on_random_cases() {
        for call in CALLS {
            let mut held = HashMap::new();
            for seed in 0..2_000 {
                let case = (call.random)(&mut Rng::new(seed), call.number);
                *held.entry(making(&case).agreement(&case)).or_insert(0) += 1;
            }
            // well-formed rows, damaged ones, and refusals
            assert!(held[&Agreement::Held] > 1_000, "{} {held:?}", call.name);
            assert!(held[&Agreement::NoCrate] > 100, "{} {held:?}", call.name);
            assert!(held[&Agreement::Refused] > 100, "{} {held:?}", call.name);
        }
    }

    /// The call, its answer, the rows that it needs and those that are free.
    type Reached = (u64, u64, Need, Room);

    #[derive(Debug, PartialEq, Eq, Hash)]
    enum Need {
        None,
        Some,
        Thousands,
        Full,
    }

    #[derive(Debug, PartialEq, Eq, Hash)]
    enum Room {
        None,
        OneShort,
        Enough,
        Other,
    }

    fn reached(call: &Call, case: &Case) -> Reached {
        let answer = (call.expected)(case).answer.number;
        let graph = Lent::of_case(case, 0, 0);
        if answer == 1 {
            return (call.number, 1, Need::None, Room::None);
        }
        let need = making(case).need(&graph, ROWS);
        let free = graph.room(ROWS) - graph.counted(ROWS);
        let room = match free {
            0 => Room::None,
            free if free + 1 == need => Room::OneShort,
            free if free == need => Room::Enough,
            _ => Room::Other,
        };
        let need = match need {
            0 => Need::None,
            1..1_000 => Need::Some,
            1_000..60_000 => Need::Thousands,
            _ => Need::Full,
        };
        (call.number, answer, need, room)
    }

    #[test]
    fn random_cases_reach_every_kind_of_room() {
        let mut all = HashSet::new();
        for call in CALLS {
            for seed in 0..6_000 {
                let case = (call.random)(&mut Rng::new(seed), call.number);
                all.insert(reached(call, &case));
            }
        }
        let holds = |key: Reached| assert!(all.contains(&key), "{key:?}");
        for call in CALLS.iter().map(|call| call.number) {
            holds((call, 1, Need::None, Room::None));
            holds((call, 4, Need::Some, Room::None));
            holds((call, 5, Need::Some, Room::None));
            holds((call, 0, Need::Some, Room::Enough));
        }
        // the other two always take a row
        for call in [51, 53, 54, 55, 56, 57, 58, 59] {
            holds((call, 0, Need::None, Room::None));
        }
        for call in [54, 55, 56, 57, 59] {
            holds((call, 5, Need::Some, Room::OneShort));
        }
        for call in OF_LIST {
            holds((call, 0, Need::Thousands, Room::Enough));
            holds((call, 5, Need::Thousands, Room::OneShort));
        }
        for call in [54, 56] {
            holds((call, 0, Need::Full, Room::Enough));
        }
    }

    /// The answer, the rows counted afterwards and the edge.
    #[track_caller]
    fn answers(case: Case, answer: Answer, rows: u64, edge: u64) {
        let outcome = making(&case).outcome(&case);
        assert_eq!(outcome.answer, answer);
        assert_eq!((outcome.results[0], outcome.results[SLICES]), (rows, edge));
        assert_eq!(outcome.results.len(), SLICES + 1);
        if answer != Answer::DONE {
            assert_eq!(outcome.slots, case.slots);
            assert_eq!(outcome.results[..SLICES], case.scalars[..SLICES]);
        }
    }

    #[test]
    fn refusals_in_their_order() {
        let full = leaves(2, 0);
        answers(of_two(51, &full, [2, 4]), Answer::NO_ROOM, 3, 0);
        answers(of_two(51, &full, [2, 6]), Answer::BAD_ARGUMENT, 3, 0);
        // not used, though the other edge would fold it away
        answers(of_two(51, &full, [0, 7]), Answer::BAD_ARGUMENT, 3, 0);
        answers(of_two(51, &full, [5, 5]), Answer::DONE, 3, 5);
        let mut none = full.clone();
        none.counts[ROWS] = 0;
        answers(of_two(51, &none, [2, 6]), Answer::BAD_SIZES, 0, 0);
        let mut above = full.clone();
        above.counts[ROWS] = 4;
        answers(of_two(51, &above, [2, 6]), Answer::BAD_SIZES, 4, 0);
        // an odd last word is none
        above.words[ROWS].push(7);
        answers(of_two(51, &above, [0, 0]), Answer::BAD_SIZES, 4, 0);
        answers(of_two(59, &leaves(2, 2), [2, 4]), Answer::NO_ROOM, 3, 0);
        answers(of_two(59, &leaves(2, 3), [2, 4]), Answer::DONE, 6, 11);
    }

    #[test]
    fn lists_at_the_limit() {
        let room = leaves(2, FULL - 1);
        let edges = |length: usize| [2, 4].into_iter().cycle().take(length).collect::<Vec<_>>();
        let rows = 3 + FULL as u64 - 1;
        for call in [54, 55] {
            let last = 2 * (rows - 1);
            answers(of_list(call, &room, &edges(FULL)), Answer::DONE, rows, last);
            let long = of_list(call, &room, &[0].repeat(FULL + 1));
            answers(long, Answer::BAD_SIZES, 3, 0);
            let short = of_list(call, &leaves(2, FULL - 2), &edges(FULL));
            answers(short, Answer::NO_ROOM, 3, 0);
        }
    }

    /// Rows are not scanned, counts of lists are not looked at, and what is not written stays.
    #[test]
    fn only_counts_and_edges_are_looked_at() {
        let mut graph = leaves(2, 2);
        graph.words[ROWS][..6].fill(9);
        graph.words[ROWS].push(8);
        graph.counts[1..].fill(u64::MAX);
        let case = of_two(53, &graph, [4, 2]);
        let outcome = making(&case).outcome(&case);
        assert_eq!(outcome.answer, Answer::DONE);
        let mut results = vec![u64::MAX; SLICES];
        results[0] = 4;
        results.push(7);
        assert_eq!(outcome.results, results);
        let words = [9, 9, 9, 9, 9, 9, 3, 5, 7, 7, 8];
        assert_eq!(outcome.slots[0].words, words);
    }
}
