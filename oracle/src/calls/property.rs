//! Calls 82 to 84: constraints into a latch, all bads into one, inits into constraints.

use super::rebuilding::{
    self, OTHER, Rebuilding, Rebuilt, at_times_damaged, first_that_fits, lent_otherwise,
    random_graph,
};
use super::{Call, Count, OUTPUT, graph_counts};
use crate::case::{Answer, Case, Outcome};
use crate::graph::{
    BADS, CONSTRAINTS, LATCHES, Lent, NONE, OUTPUTS, ROWS, SLICES, code, of_aig, to_aig,
};
use crate::refuse::too_long;
use crate::rng::Rng;
use crate::rooms;
use crate::shapes::{any_edge, edge_of};
use crate::wellformed::{self, FULL, garbage};

pub const MOVE: u64 = 82;
pub const COMPRESS: u64 = 83;
pub const GATE_INIT: u64 = 84;

pub const CALLS: &[Call] = &[
    call(MOVE, "aig_move::aig_move", random_move, moved),
    call(
        COMPRESS,
        "property::compress_property",
        random_compress,
        compressed,
    ),
    call(
        GATE_INIT,
        "property::gate_init_to_constraint",
        random_gate_init,
        constrained,
    ),
];

const COUNTS: [Count; SLICES] = graph_counts(0, 0);

const fn call(
    number: u64,
    name: &'static str,
    random: fn(&mut Rng, u64) -> Case,
    expected: fn(&Case) -> Outcome,
) -> Call {
    Call {
        number,
        name,
        random,
        expected,
        counts: &COUNTS,
        ids: &[],
        id_slots: &[],
        edges: &[],
        edge_slots: &[],
    }
}

/// The graph, the room of the copy and the marks, every slice given.
pub fn case_of_move(graph: &Lent, room: &Lent, marks: Vec<u32>) -> Case {
    rebuilding::with_room(MOVE, graph, room, marks)
}

/// The graph, the room of the old bads and the marks, every slice given.
pub fn case_of_compress(graph: &Lent, old: Vec<u32>, marks: Vec<u32>) -> Case {
    rebuilding::in_place(COMPRESS, graph, marks).lend(OUTPUT, old)
}

/// The graph and the marks, every slice given.
pub fn case_of_gate_init(graph: &Lent, marks: Vec<u32>) -> Case {
    rebuilding::in_place(GATE_INIT, graph, marks)
}

fn random_move(rng: &mut Rng, _: u64) -> Case {
    first_that_fits(rng, |rng| {
        let mut graph = random_graph(rng);
        for list in [CONSTRAINTS, BADS, OUTPUTS] {
            other_edges(rng, &mut graph, list);
        }
        let room = rooms::output(rng, &rooms::entries(&with_latch(&graph)));
        let used = graph.counted(ROWS);
        let (graph, marks) = at_times_damaged(rng, graph);
        lent_otherwise(rng, case_of_move(&graph, &room, marks), used)
    })
}

fn random_compress(rng: &mut Rng, _: u64) -> Case {
    first_that_fits(rng, |rng| {
        let mut graph = random_graph(rng).without_spare_room();
        other_edges(rng, &mut graph, BADS);
        let made = with_one_bad(&graph);
        rooms::grow(rng, &mut graph, &rooms::entries(&made.graph));
        let mut old = rooms::buffer(rng, made.words.len());
        if rng.one_in(200) {
            let length = rng.pick(&[FULL, FULL + 1]);
            old.resize_with(length, || garbage(rng));
        }
        let used = graph.counted(ROWS);
        let (graph, marks) = at_times_damaged(rng, graph);
        lent_otherwise(rng, case_of_compress(&graph, old, marks), used)
    })
}

fn random_gate_init(rng: &mut Rng, _: u64) -> Case {
    first_that_fits(rng, |rng| {
        let mut graph = random_graph(rng).without_spare_room();
        if rng.one_in(2) {
            other_inits(rng, &mut graph);
        }
        let need = rooms::entries(&without_gate_inits(&graph));
        rooms::grow(rng, &mut graph, &need);
        let used = graph.counted(ROWS);
        let (graph, marks) = at_times_damaged(rng, graph);
        lent_otherwise(rng, case_of_gate_init(&graph, marks), used)
    })
}

/// At times another list of edges: any, or such that some fold or all; what stood beyond it is gone.
fn other_edges(rng: &mut Rng, graph: &mut Lent, list: usize) {
    if rng.one_in(3) {
        return;
    }
    let used = graph.counted(ROWS);
    let (a, b) = (wellformed::edge(rng, used), wellformed::edge(rng, used));
    let constant = rng.below(2) as u32;
    let from = match rng.below(9) {
        0 => vec![],
        1 => vec![a],
        2 => vec![a, a, a ^ 1],
        3 => vec![a, constant],
        4 => vec![constant],
        5 => vec![a, b, constant],
        6 => vec![a, b, a ^ 1, b ^ 1],
        _ => (2..2 * used as u32).collect(),
    };
    let length = match from.len() {
        0 => 0,
        1..100 if rng.one_in(200) => rng.between(1_000, 5_000),
        _ => rng.pick(&[1, 1, 2, 2, 3, 5, 9]),
    };
    graph.words[list] = (0..length).map(|_| rng.pick(&from)).collect();
    graph.counts[list] = length as u64;
}

/// None, constants, the latch's own row or its complement, another latch or any row; of all latches
/// of one kind or of any.
fn other_inits(rng: &mut Rng, graph: &mut Lent) {
    let one = rng.below(12);
    let latches: Vec<[u32; 3]> = graph.latches().collect();
    for (at, [input, ..]) in latches.iter().enumerate() {
        let kind = if one < 6 { one } else { rng.below(6) };
        graph.words[LATCHES][3 * at + 2] = match kind {
            0 => NONE,
            1 => rng.below(2) as u32,
            2 => edge_of(rng, *input),
            3 => {
                let [other, ..] = rng.pick(&latches);
                edge_of(rng, other)
            }
            _ => any_edge(rng, graph),
        };
    }
}

fn moved(case: &Case) -> Outcome {
    Rebuilding::from_to(case, 0, OTHER).outcome(|graphs| Ok(with_latch(&graphs[0]).into()))
}

/// By the crate.
fn with_latch(graph: &Lent) -> Lent {
    of_aig(&to_aig(graph).aig_move())
}

/// The number of old bads comes after the counts.
fn compressed(case: &Case) -> Outcome {
    let rebuilding = Rebuilding::in_place(case);
    // a list that is handed back has the limit of lists
    let mut outcome = match too_long(case.slot(OUTPUT)) {
        true => rebuilding.refused(Answer::BAD_SIZES),
        false => rebuilding.outcome(|graphs| Ok(with_one_bad(&graphs[0]))),
    };
    let old = match outcome.answer {
        Answer::DONE => case.scalar(BADS),
        _ => 0,
    };
    outcome.results.push(old);
    outcome
}

/// By the crate; "hands back the old list".
fn with_one_bad(graph: &Lent) -> Rebuilt {
    let mut aig = to_aig(graph);
    let old = aig.compress_property();
    Rebuilt {
        words: old.into_iter().map(code).collect(),
        graph: of_aig(&aig),
    }
}

fn constrained(case: &Case) -> Outcome {
    Rebuilding::in_place(case).outcome(|graphs| Ok(without_gate_inits(&graphs[0]).into()))
}

/// By the crate.
fn without_gate_inits(graph: &Lent) -> Lent {
    let mut aig = to_aig(graph);
    aig.gate_init_to_constraint();
    of_aig(&aig)
}

#[cfg(test)]
mod tests {
    use super::*;
    use crate::calls::MARKS;
    use crate::calls::rebuilding::tests::{after, kinds_of_room, left, reached, room_for};
    use crate::construct::Table;
    use crate::graph::{EDGES, ENDS, FAIRNESS, INPUTS, LEAF};
    use crate::refuse::is_sound;

    /// "adds a latch (init true), next = latch AND all constraints, and replaces the first bad and
    /// first output by their AND with that next, then clears constraints"
    fn move_by_document(graph: &Lent) -> Lent {
        let mut table = Table::new(graph.without_spare_room());
        let latch = table.leaf();
        let all = table.ands(graph.list(CONSTRAINTS));
        let next = table.and(2 * latch, all);
        table.add_latch(latch, next, 1);
        let [bad, output] = [BADS, OUTPUTS].map(|list| {
            let first = graph.list(list).first();
            first.map(|&edge| table.and(next, edge))
        });
        let mut made = table.graph();
        for (list, edge) in [(BADS, bad), (OUTPUTS, output)] {
            made.words[list].splice(..usize::from(edge.is_some()), edge);
        }
        made.words[CONSTRAINTS].clear();
        made.count_all();
        made
    }

    /// "leaves one bad, the or of all (constant false if there were none), and hands back the old
    /// list"
    fn compress_by_document(graph: &Lent) -> Rebuilt {
        let mut table = Table::new(graph.without_spare_room());
        let old = graph.list(BADS).to_vec();
        let bad = table.ors(&old);
        let mut made = table.graph();
        made.words[BADS] = vec![bad];
        made.count_all();
        Rebuilt {
            graph: made,
            words: old,
        }
    }

    fn is_gate_init(init: u32) -> bool {
        init != NONE && init / 2 != 0
    }

    /// "a latch with init of id other than 0 loses it; one new latch (next false, init true) is
    /// added; per such latch a constraint "new latch implies latch equals init". No such latch:
    /// nothing changes."
    fn gate_init_by_document(graph: &Lent) -> Lent {
        let mut without = graph.without_spare_room();
        let latches: Vec<[u32; 3]> = graph.latches().collect();
        for (at, [_, _, init]) in latches.iter().enumerate() {
            if is_gate_init(*init) {
                without.words[LATCHES][3 * at + 2] = NONE;
            }
        }
        let gates: Vec<&[u32; 3]> = latches.iter().filter(|l| is_gate_init(l[2])).collect();
        if gates.is_empty() {
            return without;
        }
        let mut table = Table::new(without);
        let new = table.latch(0, 1);
        let mut constraints = Vec::new();
        for [input, _, init] in gates {
            let equals = table.eq(2 * input, *init);
            constraints.push(table.imply(2 * new, equals));
        }
        let mut made = table.graph();
        made.words[CONSTRAINTS].extend(constraints);
        made.count_all();
        made
    }

    /// Of a call's random cases: those whose graph has no answer 1 to 3.
    fn sound(call: &Call, seeds: u64) -> impl Iterator<Item = Lent> {
        let graphs = (0..seeds).map(|seed| {
            let case = (call.random)(&mut Rng::new(seed), call.number);
            Lent::of_case(&case, 0, 0)
        });
        graphs.filter(is_sound)
    }

    #[test]
    fn the_crate_and_document_01_agree_on_random_cases() {
        let mut held = [0; 3];
        for graph in sound(&CALLS[0], 3_000) {
            held[0] += 1;
            assert_eq!(with_latch(&graph), move_by_document(&graph));
        }
        for graph in sound(&CALLS[1], 3_000) {
            held[1] += 1;
            let (made, document) = (with_one_bad(&graph), compress_by_document(&graph));
            assert_eq!(made.graph, document.graph);
            assert_eq!(made.words, document.words);
        }
        for graph in sound(&CALLS[2], 3_000) {
            held[2] += 1;
            assert_eq!(without_gate_inits(&graph), gate_init_by_document(&graph));
        }
        assert!(held.iter().all(|&held| held > 1_500), "{held:?}");
    }

    /// None, one, some or many.
    fn how_many(count: usize) -> &'static str {
        match count {
            0 => "no",
            1 => "one",
            2..1_000 => "some",
            _ => "many",
        }
    }

    #[test]
    fn random_moves_reach_every_kind() {
        let reached = reached(&CALLS[0], 6_000, |case, outcome| {
            let graph = Lent::of_case(case, 0, 0);
            let mut kinds = Vec::new();
            if !matches!(outcome.answer.number, 0 | 5) {
                return kinds;
            }
            let made = with_latch(&graph);
            let room = Lent::of_case(case, OTHER, 0);
            kinds.extend(kinds_of_room(&made, &room));
            if outcome.answer == Answer::DONE {
                for list in [CONSTRAINTS, BADS, OUTPUTS] {
                    kinds.push(format!("{} {list}", how_many(graph.counted(list))));
                }
                let next = made.latch(made.counted(LATCHES) - 1)[1];
                kinds.push(match next {
                    0 => "next false".into(),
                    next if next / 2 == graph.counts[ROWS] as u32 => "next itself".into(),
                    _ => "next a gate".into(),
                });
                if room.room(CONSTRAINTS) < graph.counted(CONSTRAINTS) {
                    kinds.push("no room for constraints".into());
                }
            }
            kinds
        });
        for (answer, count) in [(0, 2_500), (1, 300), (2, 100), (3, 100), (5, 500)] {
            reached.at_least(&format!("answer {answer}"), count);
        }
        for slice in (0..SLICES).filter(|&slice| slice != CONSTRAINTS) {
            reached.at_least(&format!("{slice} alone one short"), 5);
            reached.at_least(&format!("{slice} alone short"), 10);
        }
        for list in [CONSTRAINTS, BADS, OUTPUTS] {
            for (many, count) in [("no", 200), ("one", 200), ("some", 200)] {
                reached.at_least(&format!("{many} {list}"), count);
            }
        }
        reached.at_least("many 3", 1);
        for kind in ["false", "itself", "a gate"] {
            reached.at_least(&format!("next {kind}"), 200);
        }
        reached.at_least("no room for constraints", 500);
    }

    #[test]
    fn random_compressions_reach_every_kind() {
        let reached = reached(&CALLS[1], 6_000, |case, outcome| {
            let graph = Lent::of_case(case, 0, 0);
            let (lent, count) = (case.slot(OUTPUT).len(), graph.counted(BADS));
            let mut kinds = Vec::new();
            if lent > FULL && is_sound(&graph) {
                kinds.push("words above the limit".into());
            }
            if !matches!(outcome.answer.number, 0 | 5) {
                return kinds;
            }
            let made = with_one_bad(&graph);
            let room = kinds_of_room(&made.graph, &graph);
            if matches!(room[0].as_str(), "exact" | "room to spare") {
                kinds.push(match lent {
                    lent if lent == count => "words exact".into(),
                    lent if lent + 1 == count => "words one short".into(),
                    lent if lent < count => "words short".into(),
                    _ => "words larger".into(),
                });
            }
            if lent >= count {
                kinds.extend(room);
            }
            if outcome.answer == Answer::DONE {
                let added = made.graph.counted(ROWS) - graph.counted(ROWS);
                let [bads, rows] = [count, added].map(how_many);
                kinds.push(format!("{bads} bads, {rows} rows"));
            }
            kinds
        });
        for (answer, count) in [(0, 2_500), (1, 300), (2, 100), (3, 100), (5, 500)] {
            reached.at_least(&format!("answer {answer}"), count);
        }
        for slice in [ROWS, BADS] {
            reached.at_least(&format!("{slice} alone one short"), 30);
        }
        reached.at_least("0 alone short", 100);
        for words in ["exact", "one short", "larger"] {
            reached.at_least(&format!("words {words}"), 100);
        }
        reached.at_least("words short", 30);
        reached.at_least("words above the limit", 2);
        for kind in [
            "no bads, no",
            "one bads, no",
            "some bads, no",
            "some bads, one",
        ] {
            reached.at_least(&format!("{kind} rows"), 100);
        }
        reached.at_least("some bads, some rows", 100);
        reached.at_least("many bads, many rows", 1);
    }

    #[test]
    fn random_gate_inits_reach_every_kind() {
        let reached = reached(&CALLS[2], 6_000, |case, outcome| {
            let graph = Lent::of_case(case, 0, 0);
            let mut kinds = Vec::new();
            if !matches!(outcome.answer.number, 0 | 5) {
                return kinds;
            }
            let made = without_gate_inits(&graph);
            kinds.extend(kinds_of_room(&made, &graph));
            let inits = graph.latches().filter(|latch| is_gate_init(latch[2]));
            let inits = inits.count();
            if outcome.answer == Answer::DONE {
                let kept = graph.counted(LATCHES) - inits;
                kinds.push(format!("{} inits", how_many(inits)));
                kinds.push(format!(
                    "{} inits, {} kept",
                    how_many(inits),
                    how_many(kept)
                ));
                let added = made.counted(ROWS) - graph.counted(ROWS);
                if inits > 0 && added == 1 {
                    kinds.push("all folds".into());
                }
                let (last, first) = (made.list(CONSTRAINTS), graph.counted(CONSTRAINTS));
                for constraint in &last[first..] {
                    kinds.push(match constraint {
                        0 | 1 => format!("constraint {constraint}"),
                        edge if edge / 2 == graph.counts[ROWS] as u32 => "the new latch".into(),
                        _ => "constraint of a gate".into(),
                    });
                }
            }
            kinds
        });
        for (answer, count) in [(0, 2_000), (1, 300), (2, 100), (3, 100), (5, 500)] {
            reached.at_least(&format!("answer {answer}"), count);
        }
        for slice in [ROWS, LATCHES, CONSTRAINTS] {
            reached.at_least(&format!("{slice} alone one short"), 50);
            reached.at_least(&format!("{slice} alone short"), 50);
        }
        for kind in [
            "no inits",
            "one inits",
            "some inits",
            "some inits, some kept",
        ] {
            reached.at_least(kind, 200);
        }
        reached.at_least("many inits", 1);
        reached.at_least("all folds", 50);
        for kind in ["constraint 1", "the new latch", "constraint of a gate"] {
            reached.at_least(kind, 50);
        }
    }

    /// Input 1, latch 2 and the lists given.
    fn graph(latches: &[u32], constraints: &[u32], bads: &[u32], outputs: &[u32]) -> Lent {
        let mut graph = Lent::new();
        graph.words[ROWS].extend(LEAF.repeat(2));
        graph.words[INPUTS] = vec![1];
        graph.words[LATCHES] = latches.to_vec();
        graph.words[CONSTRAINTS] = constraints.to_vec();
        graph.words[BADS] = bads.to_vec();
        graph.words[OUTPUTS] = outputs.to_vec();
        graph.words[ENDS] = vec![1];
        graph.words[EDGES] = vec![5];
        graph.words[FAIRNESS] = vec![2];
        graph.count_all();
        graph
    }

    fn with_rows(mut graph: Lent, rows: &[[u32; 2]]) -> Lent {
        graph.words[ROWS].extend(rows.as_flattened());
        graph.count_all();
        graph
    }

    /// The graph is copied; into room for the result alone and into more.
    #[track_caller]
    fn moves(graph: &Lent, made: &Lent) {
        for spare in [0, 1] {
            let case = case_of_move(graph, &room_for(made, spare), vec![9; 4]);
            let outcome = moved(&case);
            assert_eq!(outcome.answer, Answer::DONE);
            assert_eq!(outcome.results, made.counts);
            for (slice, words) in made.words.iter().enumerate() {
                let written = [&words[..], &vec![77; spare]].concat();
                assert_eq!(after(&outcome, OTHER + slice), written, "{slice}");
            }
            assert_eq!(outcome.slots[..SLICES], case.slots[..SLICES]);
            assert_eq!(after(&outcome, MARKS), [0, 0, 0, 9]);
        }
    }

    #[test]
    fn moves_by_hand() {
        let given = graph(&[2, 2, 3], &[2, 5], &[3, 4], &[2, 1]);
        let made = graph(&[2, 2, 3, 3, 10, 1], &[], &[12, 4], &[14, 1]);
        let rows = [LEAF, [2, 5], [6, 8], [3, 10], [2, 10]];
        moves(&given, &with_rows(made, &rows));
        // no constraint: the next is the latch itself
        let given = graph(&[2, 2, 3], &[], &[3], &[]);
        let made = graph(&[2, 2, 3, 3, 6, 1], &[], &[8], &[]);
        moves(&given, &with_rows(made, &[LEAF, [3, 6]]));
        // what cannot be fulfilled
        let given = graph(&[], &[4, 5], &[3], &[4, 4]);
        let made = graph(&[3, 0, 1], &[], &[0], &[0, 4]);
        moves(&given, &with_rows(made, &[LEAF]));
        // neither bads nor outputs
        let made = graph(&[3, 8, 1], &[], &[], &[]);
        moves(
            &graph(&[], &[5, 5], &[], &[]),
            &with_rows(made, &[LEAF, [5, 6]]),
        );
    }

    #[test]
    fn refused_moves() {
        let given = graph(&[2, 2, 3], &[2, 5], &[3, 4], &[2, 1]);
        let made = with_latch(&given);
        for slice in (0..SLICES).filter(|&slice| made.counts[slice] > 0) {
            let mut room = room_for(&made, 0);
            room.words[slice].pop();
            let case = case_of_move(&given, &room, vec![9; 3]);
            assert_eq!(moved(&case), left(&case, Answer::NO_ROOM, 3));
        }
        // no room: 5 comes last
        let refused = |change: fn(&mut Lent), marks, answer| {
            let mut given = given.clone();
            change(&mut given);
            let case = case_of_move(&given, &room_for(&Lent::new(), 0), vec![9; marks]);
            assert_eq!(moved(&case), left(&case, answer, 3));
        };
        refused(|_| {}, 3, Answer::NO_ROOM);
        refused(|_| {}, 2, Answer::BAD_SIZES);
        refused(|g| g.counts[BADS] = 3, 3, Answer::BAD_SIZES);
        refused(|g| g.words[ROWS][3] = 1, 3, Answer::bad_row(1));
        refused(
            |g| g.words[CONSTRAINTS][1] = 6,
            3,
            Answer::bad_entry(3, 1, 0),
        );
        let mut long = room_for(&made, 0);
        long.words[CONSTRAINTS].resize(FULL + 1, 77);
        let case = case_of_move(&given, &long, vec![9; 3]);
        assert_eq!(moved(&case), left(&case, Answer::BAD_SIZES, 3));
    }

    /// In place, with so much room as the result needs and more; words beyond stay.
    fn grown(given: &Lent, made: &Lent, spare: usize) -> Lent {
        let mut grown = given.clone();
        for (slice, words) in made.words.iter().enumerate() {
            let length = words.len().max(grown.words[slice].len());
            grown.words[slice].resize(length + spare, 77);
        }
        grown
    }

    #[track_caller]
    fn leaves(outcome: &Outcome, case: &Case, made: &Lent) {
        assert_eq!(outcome.answer, Answer::DONE);
        assert_eq!(outcome.results[..SLICES], made.counts);
        for (slice, words) in made.words.iter().enumerate() {
            let beyond = &case.slot(slice)[words.len()..];
            assert_eq!(after(outcome, slice), [words, beyond].concat(), "{slice}");
        }
        assert_eq!(after(outcome, MARKS)[..4], [0, 0, 0, 9]);
    }

    #[test]
    fn compressions_by_hand() {
        let holds = |bads: &[u32], bad: u32, rows: &[[u32; 2]]| {
            let given = graph(&[2, 2, 3], &[2], bads, &[4]);
            let made = with_rows(graph(&[2, 2, 3], &[2], &[bad], &[4]), rows);
            for spare in [0, 1] {
                let old = vec![88; bads.len() + spare];
                let case = case_of_compress(&grown(&given, &made, spare), old, vec![9; 4]);
                let outcome = compressed(&case);
                leaves(&outcome, &case, &made);
                assert_eq!(outcome.results[SLICES], bads.len() as u64);
                let old = [bads, &vec![88; spare]].concat();
                assert_eq!(after(&outcome, OUTPUT), old);
            }
        };
        holds(&[], 0, &[]);
        holds(&[5], 5, &[]);
        holds(&[2, 4, 2], 9, &[[3, 5], [3, 6]]);
        holds(&[2, 2, 0], 2, &[]);
        holds(&[2, 3, 4], 1, &[]);
        // the row that was made before the true stays
        holds(&[2, 4, 1], 1, &[[3, 5]]);
    }

    #[test]
    fn refused_compressions() {
        let refused = |given: &Lent, old: usize, marks, answer| {
            let case = case_of_compress(given, vec![88; old], vec![9; marks]);
            let mut expected = left(&case, answer, 3);
            expected.results.push(0);
            assert_eq!(compressed(&case), expected);
        };
        let given = graph(&[2, 2, 3], &[2], &[2, 4], &[4]);
        let made = compress_by_document(&given).graph;
        refused(&given, 2, 3, Answer::NO_ROOM);
        refused(&grown(&given, &made, 0), 1, 3, Answer::NO_ROOM);
        refused(&grown(&given, &made, 0), 0, 3, Answer::NO_ROOM);
        refused(&graph(&[], &[], &[], &[]), 0, 3, Answer::NO_ROOM);
        refused(&given, 0, 2, Answer::BAD_SIZES);
        refused(&given, FULL + 1, 3, Answer::BAD_SIZES);
        let change = |change: fn(&mut Lent)| {
            let mut given = given.clone();
            change(&mut given);
            given
        };
        refused(&change(|g| g.counts[BADS] = 3), 0, 3, Answer::BAD_SIZES);
        refused(&change(|g| g.words[ROWS][3] = 1), 0, 3, Answer::bad_row(1));
        refused(
            &change(|g| g.words[ROWS][3] = 1),
            FULL + 1,
            3,
            Answer::BAD_SIZES,
        );
        refused(
            &change(|g| g.words[BADS][1] = 6),
            0,
            3,
            Answer::bad_entry(4, 1, 0),
        );
        let long = case_of_compress(&grown(&given, &made, 0), vec![88; FULL], vec![9; 3]);
        assert_eq!(compressed(&long).answer, Answer::DONE);
    }

    #[test]
    fn gate_inits_by_hand() {
        let holds = |latches: &[u32], after: &[u32], constraints: &[u32], rows: &[[u32; 2]]| {
            let given = graph(latches, &[2], &[2], &[4]);
            let all = [&[2], constraints].concat();
            let made = with_rows(graph(after, &all, &[2], &[4]), rows);
            for spare in [0, 1] {
                let case = case_of_gate_init(&grown(&given, &made, spare), vec![9; 4]);
                leaves(&constrained(&case), &case, &made);
            }
        };
        // nothing changes
        holds(&[2, 4, NONE], &[2, 4, NONE], &[], &[]);
        holds(&[2, 4, 1], &[2, 4, 1], &[], &[]);
        // the latch 3 implies that 2 equals 1
        let rows = [LEAF, [2, 4], [3, 5], [9, 11], [6, 12]];
        holds(&[2, 4, 2], &[2, 4, NONE, 3, 0, 1], &[15], &rows);
        // itself, and what it never is
        holds(&[2, 4, 4], &[2, 4, NONE, 3, 0, 1], &[1], &[LEAF]);
        holds(&[2, 4, 5], &[2, 4, NONE, 3, 0, 1], &[7], &[LEAF]);
    }

    /// Of three latches one keeps its init, and the order is theirs.
    #[test]
    fn gate_inits_of_several_latches() {
        let mut given = Lent::new();
        given.words[ROWS].extend(LEAF.repeat(3));
        given.words[LATCHES] = vec![3, 0, 7, 2, 0, 1, 1, 0, 4];
        given.count_all();
        let mut made = given.clone();
        made.words[LATCHES] = vec![3, 0, NONE, 2, 0, 1, 1, 0, NONE, 4, 0, 1];
        made.words[CONSTRAINTS] = vec![9, 17];
        let made = with_rows(made, &[LEAF, [2, 4], [3, 5], [11, 13], [8, 14]]);
        let case = case_of_gate_init(&grown(&given, &made, 0), vec![9; 4]);
        let outcome = constrained(&case);
        assert_eq!(outcome.answer, Answer::DONE);
        assert_eq!(outcome.results, made.counts);
        for (slice, words) in made.words.iter().enumerate() {
            assert_eq!(after(&outcome, slice), words, "{slice}");
        }
        assert_eq!(after(&outcome, MARKS), [0; 4]);
    }

    #[test]
    fn refused_gate_inits() {
        let given = graph(&[2, 4, 2], &[2], &[2], &[4]);
        let made = gate_init_by_document(&given);
        for slice in [ROWS, LATCHES, CONSTRAINTS] {
            let mut short = grown(&given, &made, 0);
            short.words[slice].pop();
            let case = case_of_gate_init(&short, vec![9; 3]);
            assert_eq!(constrained(&case), left(&case, Answer::NO_ROOM, 3));
        }
        // no room: 5 comes last
        let refused = |change: fn(&mut Lent), marks, answer| {
            let mut given = given.clone();
            change(&mut given);
            let case = case_of_gate_init(&given, vec![9; marks]);
            assert_eq!(constrained(&case), left(&case, answer, 3));
        };
        refused(|_| {}, 3, Answer::NO_ROOM);
        refused(|_| {}, 2, Answer::BAD_SIZES);
        refused(|g| g.counts[BADS] = 3, 3, Answer::BAD_SIZES);
        refused(|g| g.words[ROWS][3] = 1, 3, Answer::bad_row(1));
        refused(|g| g.words[LATCHES][2] = 6, 3, Answer::bad_entry(2, 0, 0));
        // a full table does where there is nothing to do
        refused(|g| g.words[LATCHES][2] = 1, 3, Answer::DONE);
    }
}
