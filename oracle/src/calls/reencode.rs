//! Call 71: a graph in the order inputs, latches, gates.

use super::rebuilding::{
    self, OTHER, Rebuilding, at_times_damaged, first_that_fits, lent_otherwise, random_graph,
};
use super::{Call, Count, graph_counts};
use crate::case::{Answer, Case, Outcome};
use crate::graph::{INPUTS, Kind, LATCHES, Lent, NONE, ROWS, SLICES, of_aig, to_aig};
use crate::rng::Rng;
use crate::rooms;
use crate::shapes::any_edge;
use crate::wellformed;
use aig::AigEdge;

pub const REENCODE: u64 = 71;

pub const CALLS: &[Call] = &[Call {
    number: REENCODE,
    name: "reencode::reencode",
    random,
    expected,
    counts: &COUNTS,
    ids: &[],
    id_slots: &[],
    edges: &[],
    edge_slots: &[],
}];

const COUNTS: [Count; SLICES] = graph_counts(0, 0);

/// The graph, the room of the output graph and the marks, every slice given.
pub fn case(graph: &Lent, room: &Lent, marks: Vec<u32>) -> Case {
    rebuilding::with_room(REENCODE, graph, room, marks)
}

fn random(rng: &mut Rng, _: u64) -> Case {
    first_that_fits(rng, random_case)
}

fn random_case(rng: &mut Rng) -> Case {
    let mut graph = random_graph(rng);
    if !rng.one_in(8) {
        graph = without_orphans(rng, &graph);
    }
    let list = rng.pick(&[INPUTS, LATCHES]);
    if graph.counts[list] > 0 && rng.one_in(20) {
        // its last leaf is an orphan
        graph.counts[list] -= 1;
    }
    // there are as many of everything
    let room = rooms::output(rng, &rooms::entries(&graph));
    let used = graph.counted(ROWS);
    let (graph, marks) = at_times_damaged(rng, graph);
    lent_otherwise(rng, case(&graph, &room, marks), used)
}

/// The orphans become inputs and latches, anywhere in these lists.
fn without_orphans(rng: &mut Rng, graph: &Lent) -> Lent {
    let mut adopting = graph.without_spare_room();
    for leaf in graph.orphans() {
        let init = rng.pick(&[NONE, 0, 1, 2 * leaf]);
        let (list, entry) = match rng.below(2) {
            0 => (INPUTS, vec![leaf]),
            _ => (LATCHES, vec![leaf, any_edge(rng, &adopting), init]),
        };
        // long lists grow at their end
        let entries = adopting.room(list);
        let at = match entries < 100 {
            true => rng.below(entries + 1) * entry.len(),
            false => adopting.words[list].len(),
        };
        adopting.words[list].splice(at..at, entry);
    }
    adopting.count_all();
    wellformed::spare_room(rng, &mut adopting);
    adopting
}

fn expected(case: &Case) -> Outcome {
    let made = |graph: &Lent| match graph.orphans()[..] {
        [] => Ok(reencoded(graph).into()),
        // "an orphan: 4"
        _ => Err(Answer::BAD_ARGUMENT),
    };
    Rebuilding::from_to(case, 0, OTHER).outcome(|graphs| made(&graphs[0]))
}

/// By the crate; then "`merge` and `reencode` also map init".
fn reencoded(graph: &Lent) -> Lent {
    let mut aig = to_aig(graph).reencode();
    let numbers = numbers(graph);
    for latch in &mut aig.latchs {
        let map = |init: AigEdge| AigEdge::new(numbers[init.node_id()], init.compl());
        latch.init = latch.init.map(map);
    }
    of_aig(&aig)
}

/// "numbers inputs, latches, then gates in row order": the new number of every row.
fn numbers(graph: &Lent) -> Vec<usize> {
    let used = graph.counted(ROWS);
    let inputs = graph.list(INPUTS).iter().map(|&input| input as usize);
    let latches = graph.latches().map(|[input, ..]| input as usize);
    let gates = (0..used).filter(|&id| matches!(graph.kind(id), Some(Kind::Gate(..))));
    let mut numbers = vec![0; used];
    for (number, row) in (1..).zip(inputs.chain(latches).chain(gates)) {
        numbers[row] = number;
    }
    numbers
}

#[cfg(test)]
mod tests {
    use super::*;
    use crate::calls::MARKS;
    use crate::calls::rebuilding::tests::{after, kinds_of_room, left, reached, room_for};
    use crate::graph::{
        BADS, CONSTRAINTS, EDGE_LISTS, EDGES, ENDS, FAIRNESS, LEAF, OUTPUTS, ROW_0,
    };
    use crate::refuse::is_sound;

    /// "rows built by `trivial_new_and_node`": "puts the smaller id first, keeps the given order for
    /// equal ids".
    fn by_document(graph: &Lent) -> Lent {
        let numbers = numbers(graph);
        let edge = |edge: u32| 2 * numbers[edge as usize / 2] as u32 + edge % 2;
        let [inputs, latches] = [INPUTS, LATCHES].map(|list| graph.counted(list));
        let mut made = Lent::new();
        made.words[ROWS].extend(LEAF.repeat(inputs + latches));
        for id in 0..graph.counted(ROWS) {
            if let Some(Kind::Gate(a, b)) = graph.kind(id) {
                let mut row = [edge(a), edge(b)];
                row.sort_by_key(|edge| edge / 2);
                made.words[ROWS].extend(row);
            }
        }
        made.words[INPUTS].extend(1..=inputs as u32);
        for (input, [_, next, init]) in (inputs as u32 + 1..).zip(graph.latches()) {
            let init = if init == NONE { NONE } else { edge(init) };
            made.words[LATCHES].extend([input, edge(next), init]);
        }
        made.words[ENDS] = graph.list(ENDS).to_vec();
        for list in EDGE_LISTS {
            made.words[list] = graph.list(list).iter().map(|&e| edge(e)).collect();
        }
        made.count_all();
        made
    }

    fn is_constant(init: u32) -> bool {
        init < 2 || init == NONE
    }

    /// "The two agree when every init is none or constant": then the crate needs no correction.
    #[test]
    fn the_crate_and_document_01_agree_on_random_cases() {
        let (mut held, mut by_crate) = (0, 0);
        for seed in 0..3_000 {
            let graph = Lent::of_case(&random(&mut Rng::new(seed), REENCODE), 0, 0);
            if !is_sound(&graph) || !graph.orphans().is_empty() {
                continue;
            }
            held += 1;
            let document = by_document(&graph);
            assert_eq!(reencoded(&graph), document, "seed {seed}");
            assert!(is_sound(&document));
            // once is enough
            assert_eq!(reencoded(&document), document, "seed {seed}");
            if graph.latches().all(|[_, _, init]| is_constant(init)) {
                by_crate += 1;
                assert_eq!(of_aig(&to_aig(&graph).reencode()), document, "seed {seed}");
            }
        }
        assert!(held > 1_500 && by_crate > 300, "{held} {by_crate}");
    }

    #[test]
    fn random_cases_reach_every_kind() {
        let reached = reached(&CALLS[0], 6_000, |case, outcome| {
            let graph = Lent::of_case(case, 0, 0);
            let mut kinds = Vec::new();
            if matches!(outcome.answer.number, 0 | 5) {
                let room = Lent::of_case(case, OTHER, 0);
                kinds.extend(kinds_of_room(&reencoded(&graph), &room));
            }
            if outcome.answer == Answer::DONE {
                let made = reencoded(&graph);
                if made == graph.without_spare_room() {
                    kinds.push("as it was".into());
                }
                if graph.latches().any(|[_, _, init]| !is_constant(init)) {
                    kinds.push("init of a row".into());
                }
                let swapped = |id| {
                    let Some(Kind::Gate(a, b)) = graph.kind(id) else {
                        return false;
                    };
                    let [c, d] = made.row(numbers(&graph)[id]);
                    (a / 2 < b / 2) != (c / 2 < d / 2)
                };
                if graph.counted(ROWS) < 100 && (0..graph.counted(ROWS)).any(swapped) {
                    kinds.push("fanins swapped".into());
                }
                if graph.counted(ROWS) > 1_000 {
                    kinds.push("large".into());
                }
            }
            kinds
        });
        for (answer, count) in [(0, 2_000), (1, 300), (2, 100), (3, 100), (4, 300), (5, 500)] {
            reached.at_least(&format!("answer {answer}"), count);
        }
        for slice in 0..SLICES {
            reached.at_least(&format!("{slice} alone one short"), 10);
            reached.at_least(&format!("{slice} alone short"), 10);
        }
        for (kind, count) in [("exact", 500), ("room to spare", 200)] {
            reached.at_least(kind, count);
        }
        reached.at_least("as it was", 50);
        reached.at_least("init of a row", 500);
        reached.at_least("fanins swapped", 500);
        reached.at_least("large", 5);
    }

    /// Gate 1 = (1,0), input 5, latches 3 and 2, gates 4 = (6,2), 6 = (11,10), 7 = (9,12).
    fn graph() -> Lent {
        let mut graph = Lent::new();
        let rows = [[1, 0], LEAF, LEAF, [6, 2], LEAF, [11, 10], [9, 12]];
        graph.words[ROWS].extend(rows.as_flattened());
        graph.words[INPUTS] = vec![5];
        graph.words[LATCHES] = vec![3, 15, 4, 2, 7, 1];
        graph.words[CONSTRAINTS] = vec![2];
        graph.words[BADS] = vec![0, 13];
        graph.words[OUTPUTS] = vec![14];
        graph.words[ENDS] = vec![0, 2, 2];
        graph.words[EDGES] = vec![8, 5];
        graph.words[FAIRNESS] = vec![10];
        graph.count_all();
        graph
    }

    /// 5 becomes 1, 3 and 2 become 2 and 3, 1, 4, 6 and 7 become 4 to 7.
    fn result() -> Lent {
        let mut graph = Lent::new();
        let rows = [LEAF, LEAF, LEAF, [1, 0], [4, 8], [3, 2], [11, 12]];
        graph.words[ROWS].extend(rows.as_flattened());
        graph.words[INPUTS] = vec![1];
        graph.words[LATCHES] = vec![2, 15, 6, 3, 5, 1];
        graph.words[CONSTRAINTS] = vec![8];
        graph.words[BADS] = vec![0, 13];
        graph.words[OUTPUTS] = vec![14];
        graph.words[ENDS] = vec![0, 2, 2];
        graph.words[EDGES] = vec![10, 7];
        graph.words[FAIRNESS] = vec![2];
        graph.count_all();
        graph
    }

    #[test]
    fn a_reencoding_by_hand() {
        for spare in [0, 1] {
            let case = case(&graph(), &room_for(&result(), spare), vec![9; 9]);
            let outcome = expected(&case);
            assert_eq!(outcome.answer, Answer::DONE);
            assert_eq!(outcome.results, result().counts);
            for (slice, words) in result().words.iter().enumerate() {
                let written = [&words[..], &vec![77; spare]].concat();
                assert_eq!(after(&outcome, OTHER + slice), written, "{slice}");
            }
            assert_eq!(outcome.slots[..SLICES], case.slots[..SLICES]);
            assert_eq!(after(&outcome, MARKS), [0, 0, 0, 0, 0, 0, 0, 0, 9]);
        }
    }

    /// "M12 reencode of leaves 1, 2, inputs 2, latch (1, 4, 5) gives latch (2, 2, 3)"
    #[test]
    fn m12_maps_init() {
        let mut m12 = Lent::new();
        m12.words[ROWS].extend(LEAF.repeat(2));
        m12.words[INPUTS] = vec![2];
        m12.words[LATCHES] = vec![1, 4, 5];
        m12.count_all();
        let outcome = expected(&case(&m12, &room_for(&m12, 0), vec![9; 3]));
        assert_eq!(outcome.answer, Answer::DONE);
        assert_eq!(after(&outcome, OTHER + LATCHES), [2, 2, 3]);
        assert_eq!(after(&outcome, OTHER + INPUTS), [1]);
        let rows = [ROW_0, LEAF, LEAF].as_flattened().to_vec();
        assert_eq!(after(&outcome, OTHER), rows);
    }

    #[test]
    fn refusals_in_their_order() {
        let orphan: fn(&mut Lent) = |g| g.counts[INPUTS] = 0;
        let fine: fn(&mut Lent) = |_| {};
        for (first, last) in [(fine, Answer::NO_ROOM), (orphan, Answer::BAD_ARGUMENT)] {
            // no rows are lent: 5 comes last
            let refused = |change: fn(&mut Lent), answer| {
                let mut graph = graph();
                first(&mut graph);
                change(&mut graph);
                let mut case = case(&graph, &room_for(&result(), 0), vec![9; 9]);
                case.slots.retain(|slot| slot.number != OTHER);
                assert_eq!(expected(&case), left(&case, answer, 8));
            };
            refused(|_| {}, last);
            refused(|g| g.counts[ROWS] = 0, Answer::BAD_SIZES);
            refused(|g| g.counts[FAIRNESS] = 2, Answer::BAD_SIZES);
            refused(|g| g.words[ROWS][8] = 8, Answer::bad_row(4));
            refused(|g| g.words[LATCHES][4] = 16, Answer::bad_entry(2, 1, 0));
        }
        let short = case(&graph(), &room_for(&result(), 0), vec![9; 7]);
        assert_eq!(expected(&short), left(&short, Answer::BAD_SIZES, 8));
    }

    /// The output graph is room alone: one entry short is 5, a list above the limit is 1.
    #[test]
    fn room() {
        for slice in 0..SLICES {
            let mut room = room_for(&result(), 0);
            room.words[slice].pop();
            let short = case(&graph(), &room, vec![9; 8]);
            assert_eq!(expected(&short), left(&short, Answer::NO_ROOM, 8));
            if slice == ROWS {
                continue;
            }
            let width = crate::graph::WIDTH[slice];
            for (entries, answer) in [(65_536, Answer::DONE), (65_537, Answer::BAD_SIZES)] {
                let mut room = room_for(&result(), 0);
                room.words[slice].resize(entries * width + width - 1, 77);
                let long = case(&graph(), &room, vec![9; 8]);
                assert_eq!(expected(&long).answer, answer);
                if answer == Answer::BAD_SIZES {
                    assert_eq!(expected(&long), left(&long, answer, 8));
                }
            }
        }
    }
}
