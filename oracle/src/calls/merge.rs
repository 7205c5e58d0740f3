//! Call 70: a graph grows by another.

use super::rebuilding::{self, Rebuilding, first_that_fits, lent_otherwise, random_graph};
use super::{Call, Count, two_graphs};
use crate::case::{Case, Outcome};
use crate::damaged;
use crate::graph::{LATCHES, Lent, ROWS, SLICES, of_aig, to_aig};
use crate::rng::Rng;
use crate::rooms::{self, Entries};
use crate::wellformed;
use aig::AigEdge;

pub const MERGE: u64 = 70;

pub const CALLS: &[Call] = &[Call {
    number: MERGE,
    name: "merge::merge",
    random,
    expected,
    counts: &COUNTS,
    ids: &[],
    id_slots: &[],
    edges: &[],
    edge_slots: &[],
}];

const COUNTS: [Count; 2 * SLICES] = two_graphs();

/// Both graphs and the marks, every slice given.
pub fn case(own: &Lent, other: &Lent, marks: Vec<u32>) -> Case {
    rebuilding::of_two(MERGE, own, other, marks)
}

fn random(rng: &mut Rng, _: u64) -> Case {
    first_that_fits(rng, random_case)
}

fn random_case(rng: &mut Rng) -> Case {
    let mut own = random_graph(rng).without_spare_room();
    let mut other = random_graph(rng);
    let need = need(&own, &other);
    rooms::grow(rng, &mut own, &need);
    let [used, used_too] = [&own, &other].map(|graph| graph.counted(ROWS));
    let mut marks = wellformed::buffer(rng, used.max(used_too));
    for graph in [&mut own, &mut other] {
        if rng.one_in(6) {
            let mut marked = (graph.clone(), marks);
            damaged::damage(rng, &mut marked);
            (*graph, marks) = marked;
        }
    }
    // of two graphs, the larger number
    let shorter_than = rng.pick(&[used.max(used_too), used, used_too]);
    lent_otherwise(rng, case(&own, &other, marks), shorter_than)
}

/// Row 0 is common.
fn need(own: &Lent, other: &Lent) -> Entries {
    let [own, other] = [own, other].map(rooms::entries);
    let mut need: Entries = std::array::from_fn(|slice| own[slice] + other[slice]);
    need[ROWS] -= 1;
    need
}

fn expected(case: &Case) -> Outcome {
    Rebuilding::of_two(case).outcome(|graphs| Ok(merged(&graphs[0], &graphs[1]).into()))
}

/// By the crate; then "`merge` and `reencode` also map init".
fn merged(own: &Lent, other: &Lent) -> Lent {
    let mut aig = to_aig(own);
    aig.merge(&to_aig(other));
    let added = own.counted(ROWS) - 1;
    for latch in &mut aig.latchs[own.counted(LATCHES)..] {
        latch.init = latch.init.map(|init| match init.is_const() {
            true => init,
            false => AigEdge::new(init.node_id() + added, init.compl()),
        });
    }
    of_aig(&aig)
}

#[cfg(test)]
mod tests {
    use super::*;
    use crate::calls::MARKS;
    use crate::calls::rebuilding::OTHER;
    use crate::calls::rebuilding::tests::{after, kinds_of_room, left, reached};
    use crate::case::Answer;
    use crate::graph::{
        BADS, CONSTRAINTS, EDGE_LISTS, EDGES, ENDS, FAIRNESS, INPUTS, LEAF, NONE, OUTPUTS,
    };
    use crate::refuse::is_sound;

    /// "`merge` adds used−1 to ids other than 0."
    fn by_document(own: &Lent, other: &Lent) -> Lent {
        let mut merged = own.without_spare_room();
        let used = own.counted(ROWS) as u32;
        let id = |id: u32| if id == 0 { 0 } else { id + used - 1 };
        let edge = |edge: u32| 2 * id(edge / 2) + edge % 2;
        for row in (1..other.counted(ROWS)).map(|i| other.row(i)) {
            let row = if row == LEAF { row } else { row.map(edge) };
            merged.words[ROWS].extend(row);
        }
        let inputs = other.list(INPUTS).iter();
        merged.words[INPUTS].extend(inputs.map(|&input| id(input)));
        for [input, next, init] in other.latches() {
            let init = if init == NONE { NONE } else { edge(init) };
            merged.words[LATCHES].extend([id(input), edge(next), init]);
        }
        let edges = own.counted(EDGES) as u32;
        let ends = other.list(ENDS).iter();
        merged.words[ENDS].extend(ends.map(|&end| end + edges));
        for list in EDGE_LISTS {
            merged.words[list].extend(other.list(list).iter().map(|&e| edge(e)));
        }
        merged.count_all();
        merged
    }

    fn graphs(case: &Case) -> [Lent; 2] {
        [
            Lent::of_case(case, 0, 0),
            Lent::of_case(case, OTHER, SLICES),
        ]
    }

    /// "The two agree when every init is none or constant": then the crate needs no correction.
    #[test]
    fn the_crate_and_document_01_agree_on_random_cases() {
        let (mut held, mut by_crate) = (0, 0);
        for seed in 0..3_000 {
            let [own, other] = graphs(&random(&mut Rng::new(seed), MERGE));
            if !is_sound(&own) || !is_sound(&other) {
                continue;
            }
            held += 1;
            let document = by_document(&own, &other);
            assert_eq!(merged(&own, &other), document, "seed {seed}");
            let mut aig = to_aig(&own);
            aig.merge(&to_aig(&other));
            let latches = other.latches();
            let mut inits = latches.map(|[_, _, init]| init);
            if inits.all(|init| init < 2 || init == NONE) {
                by_crate += 1;
                assert_eq!(of_aig(&aig), document, "seed {seed}");
            }
        }
        assert!(held > 1_500 && by_crate > 300, "{held} {by_crate}");
    }

    #[test]
    fn random_cases_reach_every_kind() {
        let reached = reached(&CALLS[0], 6_000, |case, outcome| {
            let [own, other] = graphs(case);
            let (first, second) = (is_sound(&own), is_sound(&other));
            let number = outcome.answer.number;
            let mut kinds = vec![];
            match number {
                2 | 3 if first => kinds.push(format!("{number} of the second")),
                2 | 3 if second => kinds.push(format!("{number} of the first")),
                2 | 3 => kinds.push(format!("{number} of both")),
                _ => {}
            }
            let marks = case.slot(MARKS).len();
            let [used, used_too] = [&own, &other].map(|graph| graph.counted(ROWS));
            if first && second && marks < used && marks >= used_too {
                kinds.push("marks short for the first".into());
            }
            if first && second && marks >= used && marks < used_too {
                kinds.push("marks short for the second".into());
            }
            if matches!(number, 0 | 5) {
                kinds.extend(kinds_of_room(&merged(&own, &other), &own));
            }
            if number == 0 {
                let latches = other.latches();
                let mut inits = latches.map(|[_, _, init]| init);
                if inits.any(|init| init >= 2 && init != NONE) && used > 1 {
                    kinds.push("init of a row".into());
                }
                if own.counted(EDGES) > 0 && other.counted(ENDS) > 0 {
                    kinds.push("ends shifted".into());
                }
                if used.min(used_too) == 1 {
                    kinds.push("row 0 alone".into());
                }
                if used.max(used_too) > 1_000 {
                    kinds.push("large".into());
                }
            }
            kinds
        });
        for (answer, count) in [(0, 2_000), (1, 500), (2, 200), (3, 200), (5, 800)] {
            reached.at_least(&format!("answer {answer}"), count);
        }
        for number in [2, 3] {
            for which in ["the first", "the second", "both"] {
                reached.at_least(&format!("{number} of {which}"), 5);
            }
        }
        for which in ["first", "second"] {
            reached.at_least(&format!("marks short for the {which}"), 10);
        }
        for slice in 0..SLICES {
            reached.at_least(&format!("{slice} alone one short"), 10);
            reached.at_least(&format!("{slice} alone short"), 10);
        }
        for (kind, count) in [("exact", 500), ("room to spare", 200)] {
            reached.at_least(kind, count);
        }
        for (kind, count) in [("init of a row", 500), ("ends shifted", 200)] {
            reached.at_least(kind, count);
        }
        reached.at_least("row 0 alone", 100);
        reached.at_least("large", 5);
    }

    /// Leaf 1, which is an input; gate 2 = (3,1); one entry in every list, two justice edges.
    fn own() -> Lent {
        let mut graph = Lent::new();
        graph.words[ROWS].extend([LEAF, [3, 1]].as_flattened());
        graph.words[INPUTS] = vec![1];
        graph.words[CONSTRAINTS] = vec![4];
        graph.words[BADS] = vec![5];
        graph.words[OUTPUTS] = vec![2];
        graph.words[ENDS] = vec![2];
        graph.words[EDGES] = vec![3, 4];
        graph.words[FAIRNESS] = vec![1];
        graph.count_all();
        graph
    }

    /// Input 2, latches 1 and 3, gate 4 = (5,2), which stands unsorted, 5 = (0,9).
    fn other() -> Lent {
        let mut graph = Lent::new();
        graph.words[ROWS].extend([LEAF, LEAF, LEAF, [5, 2], [0, 9]].as_flattened());
        graph.words[INPUTS] = vec![2];
        graph.words[LATCHES] = vec![3, 9, 4, 1, 1, 1];
        graph.words[BADS] = vec![0, 1, 10];
        graph.words[OUTPUTS] = vec![11];
        graph.words[ENDS] = vec![0, 1];
        graph.words[EDGES] = vec![7];
        graph.words[FAIRNESS] = vec![8];
        graph.count_all();
        graph
    }

    fn result() -> Lent {
        let mut graph = own();
        let rows = [LEAF, LEAF, LEAF, [9, 6], [0, 13]];
        graph.words[ROWS].extend(rows.as_flattened());
        graph.words[INPUTS] = vec![1, 4];
        graph.words[LATCHES] = vec![5, 13, 8, 3, 1, 1];
        graph.words[BADS] = vec![5, 0, 1, 14];
        graph.words[OUTPUTS] = vec![2, 15];
        graph.words[ENDS] = vec![2, 2, 3];
        graph.words[EDGES] = vec![3, 4, 11];
        graph.words[FAIRNESS] = vec![1, 12];
        graph.count_all();
        graph
    }

    /// Own with some garbage beyond, as many entries as the result has and more.
    fn grown(spare: usize) -> Lent {
        let mut graph = own();
        for (slice, words) in result().words.iter().enumerate() {
            graph.words[slice].resize(words.len() + spare, 77);
        }
        graph
    }

    #[test]
    fn a_merge_by_hand() {
        for spare in [0, 1] {
            let case = case(&grown(spare), &other(), vec![9; 7]);
            let outcome = expected(&case);
            assert_eq!(outcome.answer, Answer::DONE);
            assert_eq!(outcome.results, result().counts);
            for (slice, words) in result().words.iter().enumerate() {
                let written = [&words[..], &vec![77; spare]].concat();
                assert_eq!(after(&outcome, slice), written, "{slice}");
            }
            // the other stays, and the marks are cleared over the larger number of rows
            assert_eq!(
                outcome.slots[OTHER..2 * SLICES],
                case.slots[OTHER..2 * SLICES]
            );
            assert_eq!(after(&outcome, MARKS), [0, 0, 0, 0, 0, 0, 9]);
        }
    }

    #[test]
    fn one_entry_short_is_5() {
        for slice in 0..SLICES {
            let mut short = grown(0);
            short.words[slice].pop();
            let case = case(&short, &other(), vec![9; 6]);
            if slice == CONSTRAINTS {
                // nothing is added to them: the count is above the room
                assert_eq!(expected(&case).answer, Answer::BAD_SIZES);
                continue;
            }
            assert_eq!(expected(&case), left(&case, Answer::NO_ROOM, 6));
        }
        // the same graph twice
        let mut twice = own();
        twice.words[ROWS].extend([7; 4]);
        let whole = case(&twice, &own(), vec![9; 3]);
        assert_eq!(expected(&whole), left(&whole, Answer::NO_ROOM, 3));
        let alone = case(&own(), &Lent::new(), vec![9; 3]);
        assert_eq!(expected(&alone), left(&alone, Answer::DONE, 3));
    }

    #[test]
    fn refusals_in_their_order() {
        let with = |change: fn(&mut Lent, &mut Lent)| {
            // no room: 5 comes last
            let (mut own, mut other) = (own(), other());
            change(&mut own, &mut other);
            case(&own, &other, vec![9; 6])
        };
        let refused = |change, answer| {
            let case = with(change);
            assert_eq!(expected(&case), left(&case, answer, 6));
        };
        refused(|_, _| {}, Answer::NO_ROOM);
        refused(
            |g, h| (g.words[ROWS][4], h.counts[ROWS]) = (4, 0),
            Answer::BAD_SIZES,
        );
        refused(
            |g, h| (g.words[ROWS][4], h.counts[8]) = (4, 2),
            Answer::BAD_SIZES,
        );
        refused(
            |g, h| (g.words[BADS][0], h.words[ROWS][8]) = (6, 8),
            Answer::bad_entry(4, 0, 0),
        );
        refused(
            |g, h| (g.words[ROWS][4], h.words[ROWS][8]) = (4, 8),
            Answer::bad_row(2),
        );
        refused(|_, h| h.words[ROWS][8] = 8, Answer::bad_row(4));
        refused(|_, h| h.words[EDGES][0] = 12, Answer::bad_entry(6, 1, 1));
        // the marks of the larger number
        for (marks, answer) in [(5, Answer::BAD_SIZES), (6, Answer::NO_ROOM)] {
            let case = case(&own(), &other(), vec![9; marks]);
            assert_eq!(expected(&case), left(&case, answer, 6));
            let case = self::case(&other(), &own(), vec![9; marks]);
            assert_eq!(expected(&case), left(&case, answer, 6));
        }
    }
}
