//! Call 72: the part of a graph that its roots reach.

use super::rebuilding::{
    self, OTHER, Rebuilding, Rebuilt, at_times_damaged, first_that_fits, lent_otherwise,
    random_graph,
};
use super::{Call, Count, OUTPUT, graph_counts};
use crate::case::{Case, Outcome};
use crate::graph::{Lent, ROWS, SLICES, of_aig, to_aig};
use crate::rng::Rng;
use crate::rooms;
use logicrs::Var;

pub const REFINE: u64 = 72;

pub const CALLS: &[Call] = &[Call {
    number: REFINE,
    name: "refine::coi_refine",
    random,
    expected,
    counts: &COUNTS,
    ids: &[],
    id_slots: &[],
    edges: &[],
    edge_slots: &[],
}];

const COUNTS: [Count; SLICES] = graph_counts(0, 0);

/// The graph, the room of the output graph, the new-to-old words and the marks, every slice given.
pub fn case(graph: &Lent, room: &Lent, words: Vec<u32>, marks: Vec<u32>) -> Case {
    rebuilding::with_room(REFINE, graph, room, marks).lend(OUTPUT, words)
}

fn random(rng: &mut Rng, _: u64) -> Case {
    first_that_fits(rng, random_case)
}

fn random_case(rng: &mut Rng) -> Case {
    let graph = random_graph(rng);
    let made = refined(&graph);
    let room = rooms::output(rng, &rooms::entries(&made.graph));
    let words = rooms::buffer(rng, made.words.len());
    let used = graph.counted(ROWS);
    let (graph, marks) = at_times_damaged(rng, graph);
    lent_otherwise(rng, case(&graph, &room, words, marks), used)
}

fn expected(case: &Case) -> Outcome {
    Rebuilding::from_to(case, 0, OTHER).outcome(|graphs| Ok(refined(&graphs[0])))
}

/// By the crate. "the new-to-old list comes back"
fn refined(graph: &Lent) -> Rebuilt {
    let (aig, old) = to_aig(graph).coi_refine();
    let old = |new: usize| old.get(Var::new(new)).expect("every kept row was one");
    let words = aig
        .nodes_range_with_false()
        .map(|new| usize::from(old(new)) as u32);
    Rebuilt {
        words: words.collect(),
        graph: of_aig(&aig),
    }
}

#[cfg(test)]
mod tests {
    use super::*;
    use crate::calls::MARKS;
    use crate::calls::rebuilding::tests::{after, kinds_of_room, left, reached, room_for};
    use crate::case::Answer;
    use crate::graph::{
        BADS, CONSTRAINTS, EDGE_LISTS, EDGES, ENDS, FAIRNESS, INPUTS, Kind, LATCHES, LEAF, NONE,
        OUTPUTS, ROW_0,
    };
    use crate::refuse::is_sound;
    use crate::wellformed::FULL;
    use std::collections::BTreeSet;

    /// "roots are the five root lists, every latch input and every non-constant init"
    fn roots(graph: &Lent) -> BTreeSet<u32> {
        let lists = EDGE_LISTS.iter().flat_map(|&list| graph.list(list));
        let mut roots: BTreeSet<u32> = lists.map(|edge| edge / 2).collect();
        for [input, _, init] in graph.latches() {
            roots.insert(input);
            if init != NONE && init / 2 != 0 {
                roots.insert(init / 2);
            }
        }
        roots
    }

    /// `coi` of them: "always has row 0, [..] crosses a latch from input to next, and doesn't follow
    /// init".
    fn kept(graph: &Lent) -> Vec<u32> {
        let mut kept = roots(graph);
        kept.insert(0);
        loop {
            let mut below = Vec::new();
            for &id in &kept {
                if let Some(Kind::Gate(a, b)) = graph.kind(id as usize) {
                    below.extend([a / 2, b / 2]);
                }
            }
            let crossed = graph.latches().filter(|[input, ..]| kept.contains(input));
            below.extend(crossed.map(|[_, next, _]| next / 2));
            let before = kept.len();
            kept.extend(below);
            if kept.len() == before {
                return kept.into_iter().collect();
            }
        }
    }

    /// "no latch is dropped; kept rows keep their order"
    fn by_document(graph: &Lent) -> Rebuilt {
        let kept = kept(graph);
        let id = |old: u32| kept.binary_search(&old).expect("it is kept") as u32;
        let edge = |edge: u32| 2 * id(edge / 2) + edge % 2;
        let mut made = Lent::new();
        for row in kept[1..].iter().map(|&old| graph.row(old as usize)) {
            let row = if row == LEAF { row } else { row.map(edge) };
            made.words[ROWS].extend(row);
        }
        let inputs = graph.list(INPUTS).iter();
        let inputs = inputs.filter(|input| kept.contains(input));
        made.words[INPUTS] = inputs.map(|&input| id(input)).collect();
        for [input, next, init] in graph.latches() {
            let init = if init == NONE { NONE } else { edge(init) };
            made.words[LATCHES].extend([id(input), edge(next), init]);
        }
        made.words[ENDS] = graph.list(ENDS).to_vec();
        for list in EDGE_LISTS {
            made.words[list] = graph.list(list).iter().map(|&e| edge(e)).collect();
        }
        made.count_all();
        Rebuilt {
            graph: made,
            words: kept,
        }
    }

    #[test]
    fn the_crate_and_document_01_agree_on_random_cases() {
        let mut held = 0;
        for seed in 0..3_000 {
            let graph = Lent::of_case(&random(&mut Rng::new(seed), REFINE), 0, 0);
            if !is_sound(&graph) || graph.counted(ROWS) > 300 {
                continue;
            }
            held += 1;
            let (made, document) = (refined(&graph), by_document(&graph));
            assert_eq!(made.graph, document.graph, "seed {seed}");
            assert_eq!(made.words, document.words, "seed {seed}");
            assert!(is_sound(&made.graph));
        }
        assert!(held > 1_500, "{held}");
    }

    #[test]
    fn random_cases_reach_every_kind() {
        let reached = reached(&CALLS[0], 6_000, |case, outcome| {
            let graph = Lent::of_case(case, 0, 0);
            let mut kinds = Vec::new();
            if !matches!(outcome.answer.number, 0 | 5) {
                return kinds;
            }
            let made = refined(&graph);
            let (need, lent) = (made.words.len(), case.slot(OUTPUT).len());
            let room = kinds_of_room(&made.graph, &Lent::of_case(case, OTHER, 0));
            let is_enough = room[0] == "exact" || room[0] == "room to spare";
            let words = match lent {
                lent if lent == need => "exact",
                lent if lent + 1 == need => "one short",
                lent if lent < need => "short",
                _ => "larger",
            };
            if is_enough {
                kinds.push(format!("words {words}"));
            }
            if lent >= need {
                kinds.extend(room);
            }
            if outcome.answer == Answer::DONE {
                let before = graph.counted(ROWS);
                kinds.push(match before - need {
                    0 => "all rows kept".into(),
                    dropped if 2 * dropped > before => "most rows dropped".into(),
                    _ => "rows dropped".into(),
                });
                if made.graph.counted(INPUTS) < graph.counted(INPUTS) {
                    kinds.push("an input dropped".into());
                }
                let (orphans, left) = (graph.orphans(), made.graph.orphans());
                if !left.is_empty() {
                    kinds.push("an orphan kept".into());
                }
                if left.len() < orphans.len() {
                    kinds.push("an orphan dropped".into());
                }
                if before > 1_000 {
                    kinds.push("large".into());
                }
            }
            kinds
        });
        for (answer, count) in [(0, 1_500), (1, 300), (2, 100), (3, 100), (5, 1_000)] {
            reached.at_least(&format!("answer {answer}"), count);
        }
        for slice in 0..SLICES {
            reached.at_least(&format!("{slice} alone one short"), 5);
            reached.at_least(&format!("{slice} alone short"), 10);
        }
        for (kind, count) in [("exact", 500), ("room to spare", 200)] {
            reached.at_least(kind, count);
        }
        for words in ["exact", "one short", "short", "larger"] {
            reached.at_least(&format!("words {words}"), 100);
        }
        for kind in ["all rows kept", "rows dropped", "most rows dropped"] {
            reached.at_least(kind, 50);
        }
        for kind in ["an input dropped", "an orphan kept", "an orphan dropped"] {
            reached.at_least(kind, 100);
        }
        reached.at_least("large", 3);
    }

    /// Leaves 1 to 6: inputs 5 and 2, latches 3 and 1, orphans 4 and 6. Gates 7 = (12,3), 8 = (1,10),
    /// 9 = (17,2), 10 = (4,8). The next of 3 is not 9; the init of 1 is 7. So 2, 4 and 10 are not
    /// reached.
    fn graph() -> Lent {
        let mut graph = Lent::new();
        graph.words[ROWS].extend(LEAF.repeat(6));
        graph.words[ROWS].extend([[12, 3], [1, 10], [17, 2], [4, 8]].as_flattened());
        graph.words[INPUTS] = vec![5, 2];
        graph.words[LATCHES] = vec![3, 19, 1, 1, 0, 14];
        graph.words[ENDS] = vec![0, 1];
        graph.words[EDGES] = vec![7];
        graph.words[BADS] = vec![1];
        graph.count_all();
        graph
    }

    const WORDS: [u32; 8] = [0, 1, 3, 5, 6, 7, 8, 9];

    fn result() -> Lent {
        let mut graph = Lent::new();
        graph.words[ROWS].extend(LEAF.repeat(4));
        graph.words[ROWS].extend([[8, 3], [1, 6], [13, 2]].as_flattened());
        graph.words[INPUTS] = vec![3];
        graph.words[LATCHES] = vec![2, 15, 1, 1, 0, 10];
        graph.words[ENDS] = vec![0, 1];
        graph.words[EDGES] = vec![5];
        graph.words[BADS] = vec![1];
        graph.count_all();
        graph
    }

    #[test]
    fn a_refinement_by_hand() {
        for spare in [0, 1] {
            let room = room_for(&result(), spare);
            let case = case(&graph(), &room, vec![88; 8 + spare], vec![9; 12]);
            let outcome = expected(&case);
            assert_eq!(outcome.answer, Answer::DONE);
            assert_eq!(outcome.results, result().counts);
            for (slice, words) in result().words.iter().enumerate() {
                let written = [&words[..], &vec![77; spare]].concat();
                assert_eq!(after(&outcome, OTHER + slice), written, "{slice}");
            }
            let words = [&WORDS[..], &vec![88; spare]].concat();
            assert_eq!(after(&outcome, OUTPUT), words);
            assert_eq!(outcome.slots[..SLICES], case.slots[..SLICES]);
            assert_eq!(after(&outcome, MARKS), [0, 0, 0, 0, 0, 0, 0, 0, 0, 0, 0, 9]);
        }
    }

    /// Each list alone keeps the gate that it names, and nothing does without it.
    #[test]
    fn roots_by_hand() {
        let rows = |list: usize, entries: &[u32]| {
            let mut graph = Lent::new();
            graph.words[ROWS].extend([LEAF, LEAF, [2, 2]].as_flattened());
            graph.words[INPUTS] = vec![1, 2];
            if list == LATCHES {
                graph.words[INPUTS].clear();
            }
            graph.words[list] = entries.to_vec();
            if list == EDGES {
                graph.words[ENDS] = vec![1];
            }
            graph.count_all();
            let outcome = expected(&case(&graph, &room_for(&graph, 0), vec![8; 4], vec![9; 4]));
            assert_eq!(outcome.answer, Answer::DONE);
            let kept = outcome.results[ROWS] as usize;
            after(&outcome, OUTPUT)[..kept].to_vec()
        };
        for list in [CONSTRAINTS, BADS, OUTPUTS, EDGES, FAIRNESS] {
            assert_eq!(rows(list, &[7]), [0, 1, 3]);
            assert_eq!(rows(list, &[4]), [0, 2]);
            assert_eq!(rows(list, &[1]), [0]);
        }
        assert_eq!(rows(OUTPUTS, &[]), [0]);
        // the input, next and init of a latch; a constant init is none
        assert_eq!(rows(LATCHES, &[2, 1, NONE]), [0, 2]);
        assert_eq!(rows(LATCHES, &[2, 6, 0]), [0, 1, 2, 3]);
        assert_eq!(rows(LATCHES, &[2, 0, 7]), [0, 1, 2, 3]);
    }

    #[test]
    fn refusals_in_their_order() {
        // no words are lent: 5 comes last
        let refused = |change: fn(&mut Lent), answer| {
            let mut graph = graph();
            change(&mut graph);
            let case = case(&graph, &room_for(&result(), 0), vec![], vec![9; 12]);
            assert_eq!(expected(&case), left(&case, answer, 11));
        };
        refused(|_| {}, Answer::NO_ROOM);
        refused(|g| g.counts[ROWS] = 0, Answer::BAD_SIZES);
        refused(|g| g.counts[FAIRNESS] = 2, Answer::BAD_SIZES);
        refused(|g| g.words[ROWS][20] = 20, Answer::bad_row(10));
        refused(|g| g.words[LATCHES][4] = 22, Answer::bad_entry(2, 1, 0));
        let short = case(&graph(), &room_for(&result(), 0), vec![8; 8], vec![9; 10]);
        assert_eq!(expected(&short), left(&short, Answer::BAD_SIZES, 11));
    }

    #[test]
    fn room() {
        let whole = |words: usize| {
            case(
                &graph(),
                &room_for(&result(), 0),
                vec![8; words],
                vec![9; 11],
            )
        };
        assert_eq!(expected(&whole(7)), left(&whole(7), Answer::NO_ROOM, 11));
        // there is no upper limit
        assert_eq!(expected(&whole(FULL + 1)).answer, Answer::DONE);
        for slice in (0..SLICES).filter(|&slice| result().counts[slice] > 0) {
            let mut room = room_for(&result(), 0);
            room.words[slice].pop();
            let short = case(&graph(), &room, vec![8; 8], vec![9; 11]);
            assert_eq!(expected(&short), left(&short, Answer::NO_ROOM, 11));
        }
        let mut long = room_for(&result(), 0);
        long.words[OUTPUTS].resize(FULL + 1, 77);
        let long = case(&graph(), &long, vec![8; 8], vec![9; 11]);
        assert_eq!(expected(&long), left(&long, Answer::BAD_SIZES, 11));
        // row 0 alone
        let one = case(&Lent::new(), &room_for(&Lent::new(), 0), vec![8], vec![9]);
        let outcome = expected(&one);
        assert_eq!(outcome.answer, Answer::DONE);
        assert_eq!(after(&outcome, OTHER), ROW_0);
        assert_eq!(after(&outcome, OUTPUT), [0]);
    }
}
