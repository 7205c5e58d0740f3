//! Calls 80 and 81: one frame more, and frames on a copy.

use super::rebuilding::{
    self, OTHER, Rebuilding, Rebuilt, at_times_damaged, first_that_fits, lent_otherwise,
    random_graph,
};
use super::{Call, Count, MARKS, graph_counts, two_graphs};
use crate::case::{Answer, Case, Outcome};
use crate::damaged;
use crate::graph::{
    CONSTRAINTS, EDGE_LISTS, EDGES, ENDS, INPUTS, Kind, LATCHES, LEAF, Lent, NONE, OUTPUTS, ROWS,
    SLICES, of_aig, to_aig,
};
use crate::rng::Rng;
use crate::rooms::{self, Entries};
use crate::shapes::{any_edge, edge_of, push_row};
use crate::wellformed::{self, push_set};
use aig::Aig;

pub const UNROLL: u64 = 80;
pub const UNROLL_TO: u64 = 81;

pub const CALLS: &[Call] = &[
    Call {
        number: UNROLL,
        name: "unroll::unroll",
        random,
        expected,
        counts: &COUNTS,
        ids: &[],
        id_slots: &[],
        edges: &[],
        edge_slots: &[],
    },
    Call {
        number: UNROLL_TO,
        name: "unroll_to::unroll_to",
        random: random_to,
        expected: expected_to,
        counts: &COUNTS_TO,
        ids: &[],
        id_slots: &[],
        edges: &[],
        edge_slots: &[],
    },
];

const COUNTS: [Count; 2 * SLICES] = two_graphs();
/// The given graph stands where the other one does.
const COUNTS_TO: [Count; SLICES] = graph_counts(OTHER, 0);

/// "`unroll_to` at most 4,096 frames"
const MOST_FRAMES: u64 = 4_096;
/// The scalar after the counts.
const FRAMES: usize = SLICES;
/// The most rows that the program has room for.
const MOST_ROWS: usize = 65_000;

/// The target, `from` and the marks, every slice given.
pub fn case(target: &Lent, from: &Lent, marks: Vec<u32>) -> Case {
    rebuilding::of_two(UNROLL, target, from, marks)
}

/// The given graph, the frames, the room of the copy and the marks, every slice given.
pub fn case_to(graph: &Lent, frames: u64, room: &Lent, marks: Vec<u32>) -> Case {
    let mut case = Case::new(UNROLL_TO, &graph.counts);
    case.scalars.push(frames);
    case.slots.extend(room.slots(0));
    case.slots.extend(graph.slots(OTHER));
    case.lend(MARKS, marks)
}

fn random(rng: &mut Rng, _: u64) -> Case {
    first_that_fits(rng, random_case)
}

fn random_case(rng: &mut Rng) -> Case {
    let mut from = random_graph(rng).without_spare_room();
    let mut target = random_target(rng, &from);
    if rng.one_in(7) {
        spoil(rng, &mut target, &mut from);
    }
    let need = match is_target(&target, &from) {
        true => rooms::entries(&unrolled(&target, &from)),
        false => rooms::entries(&target),
    };
    rooms::grow(rng, &mut target, &need);
    wellformed::spare_room(rng, &mut from);
    let [used, used_too] = [&target, &from].map(|graph| graph.counted(ROWS));
    let mut marks = wellformed::buffer(rng, used.max(used_too));
    for graph in [&mut target, &mut from] {
        if rng.one_in(10) {
            let mut marked = (graph.clone(), marks);
            damaged::damage(rng, &mut marked);
            (*graph, marks) = marked;
        }
    }
    // of two graphs, the larger number
    let shorter_than = rng.pick(&[used.max(used_too), used, used_too]);
    lent_otherwise(rng, case(&target, &from, marks), shorter_than)
}

/// The graph itself, with some frames, or with other rows behind its own and other lists.
fn random_target(rng: &mut Rng, from: &Lent) -> Lent {
    match rng.below(10) {
        0..4 => from.clone(),
        4..7 => {
            let frames = rng.between(1, 3).min(MOST_ROWS / from.counted(ROWS));
            of_aig(&to_aig(from).unroll_to(frames))
        }
        _ => grown(rng, from),
    }
}

fn grown(rng: &mut Rng, from: &Lent) -> Lent {
    let mut target = from.clone();
    for _ in 0..rng.below(6) {
        let gate = [any_edge(rng, &target), any_edge(rng, &target)];
        let row = rng.pick(&[LEAF, gate]);
        let id = push_row(&mut target, row);
        if row == LEAF && rng.one_in(2) {
            target.words[INPUTS].push(id);
        }
    }
    if rng.one_in(4) {
        target.words[INPUTS].clear();
    }
    for latch in 0..target.room(LATCHES) {
        let (next, init) = (any_edge(rng, &target), any_edge(rng, &target));
        if rng.one_in(2) {
            target.words[LATCHES][3 * latch + 1] = next;
            target.words[LATCHES][3 * latch + 2] = rng.pick(&[NONE, 0, 1, init]);
        }
    }
    if rng.one_in(2) {
        for list in EDGE_LISTS.into_iter().filter(|&list| list != EDGES) {
            target.words[list] = (0..rng.below(3)).map(|_| any_edge(rng, &target)).collect();
        }
        target.words[ENDS].clear();
        target.words[EDGES].clear();
        for _ in 0..rng.below(3) {
            push_set(rng, &mut target);
        }
    }
    target.count_all();
    target
}

/// The target is no target any more, mostly; both stay well-formed.
fn spoil(rng: &mut Rng, target: &mut Lent, from: &mut Lent) {
    let gates = |graph: &Lent, rows: usize| -> Vec<usize> {
        let is_gate = |&id: &usize| matches!(graph.kind(id), Some(Kind::Gate(..)));
        (0..rows.min(graph.room(ROWS))).filter(is_gate).collect()
    };
    let latches = target.room(LATCHES);
    match rng.below(7) {
        // the latches in another order, or one of them missing
        0 if latches > 1 => {
            let (a, b) = (rng.below(latches), rng.below(latches));
            for part in 0..3 {
                target.words[LATCHES].swap(3 * a + part, 3 * b + part);
            }
        }
        1 if latches > 0 => {
            let graph = if rng.one_in(2) { target } else { from };
            let at = 3 * rng.below(latches);
            graph.words[LATCHES].drain(at..at + 3);
            graph.count_all();
        }
        // a latch more
        2 => {
            let leaf = push_row(target, LEAF);
            target.words[LATCHES].extend([leaf, 0, NONE]);
            target.count_all();
        }
        // another gate: one of the first, the last or any
        3 | 4 => {
            let gates = gates(target, from.room(ROWS));
            let (Some(&first), Some(&last)) = (gates.first(), gates.last()) else {
                return;
            };
            let any = rng.pick(&gates);
            let gate = rng.pick(&[first, last, any]);
            let [a, b] = target.row(gate);
            let other = wellformed::edge(rng, gate);
            let row = rng.pick(&[[b, a], [a ^ 1, b], [a, b ^ 1], [a, other]]);
            target.words[ROWS][2 * gate..2 * gate + 2].copy_from_slice(&row);
        }
        // a row more in the one
        5 => {
            let gate = [any_edge(rng, from), any_edge(rng, from)];
            push_row(from, rng.pick(&[LEAF, gate]));
            from.count_all();
        }
        _ => *target = random_graph(rng).without_spare_room(),
    }
}

fn random_to(rng: &mut Rng, _: u64) -> Case {
    first_that_fits(rng, random_case_to)
}

/// The room is for all frames or for fewer.
fn random_case_to(rng: &mut Rng) -> Case {
    let (graph, frames) = match rng.below(150) {
        0 => (idle(rng), rng.pick(&[MOST_FRAMES, MOST_FRAMES, 4_095])),
        1..5 => (idle(rng), rng.between(100, 1_000) as u64),
        _ => (random_graph(rng), few_frames(rng)),
    };
    let most = if graph.counted(ROWS) > 40 { 4 } else { 60 };
    let mut fitting = frames.min(MOST_FRAMES) as usize;
    if rng.one_in(5) {
        fitting = rng.below(fitting + 1);
    }
    if !is_idle(&graph) {
        fitting = fitting.min(most).min(MOST_ROWS / graph.counted(ROWS));
    }
    let need = rooms::entries(&of_aig(&to_aig(&graph).unroll_to(fitting)));
    let room = rooms::output(rng, &need);
    let used = graph.counted(ROWS);
    let (graph, marks) = at_times_damaged(rng, graph);
    lent_otherwise(rng, case_to(&graph, frames, &room, marks), used)
}

/// Rarely more than the most.
fn few_frames(rng: &mut Rng) -> u64 {
    match rng.below(40) {
        0..4 => 0,
        4..14 => 1,
        14..32 => rng.between(2, 5) as u64,
        32..36 => rng.between(6, 50) as u64,
        36 => MOST_FRAMES,
        37 | 38 => MOST_FRAMES + 1,
        _ => rng.pick(&[MOST_FRAMES + 2, 1 << 32, (1 << 32) + 1, u64::MAX]),
    }
}

/// Latches and gates that fold in every frame, with few outputs.
pub fn idle(rng: &mut Rng) -> Lent {
    let mut graph = Lent::new();
    let latches = rng.between(1, 4) as u32;
    graph.words[ROWS].extend(LEAF.repeat(latches as usize));
    for _ in 0..rng.below(3) {
        let edge = any_edge(rng, &graph);
        push_row(
            &mut graph,
            rng.pick(&[[edge, edge], [edge, edge ^ 1], [1, edge], [edge, 0]]),
        );
    }
    for id in 1..=latches {
        let next = any_edge(rng, &graph);
        let init = edge_of(rng, id);
        graph.words[LATCHES].extend([id, next, rng.pick(&[NONE, 0, 1, init])]);
    }
    let list = rng.pick(&[OUTPUTS, CONSTRAINTS]);
    graph.words[list] = (0..rng.below(3)).map(|_| any_edge(rng, &graph)).collect();
    graph.count_all();
    graph
}

/// Does no frame add a row?
fn is_idle(graph: &Lent) -> bool {
    let folds = |id: usize| match graph.kind(id) {
        Some(Kind::Gate(a, b)) => a / 2 == b / 2 || a < 2 || b < 2,
        Some(Kind::Leaf) => graph.latches().any(|[input, ..]| input as usize == id),
        _ => true,
    };
    graph.counted(ROWS) < 20 && (0..graph.counted(ROWS)).all(folds)
}

fn expected(case: &Case) -> Outcome {
    Rebuilding::of_two(case).outcome(|graphs| {
        let (target, from) = (&graphs[0], &graphs[1]);
        match is_target(target, from) {
            true => Ok(unrolled(target, from).into()),
            false => Err(Answer::BAD_ARGUMENT),
        }
    })
}

/// "`unroll` asks that the target's first rows equal `from`'s used rows, and that both have the
/// same latch inputs in order; else 4."
fn is_target(target: &Lent, from: &Lent) -> bool {
    let [target_rows, rows] = [target, from].map(|graph| {
        let words = 2 * graph.counted(ROWS);
        &graph.words[ROWS][..words]
    });
    let [target_inputs, inputs] =
        [target, from].map(|graph| graph.latches().map(|[input, ..]| input).collect::<Vec<_>>());
    target_rows.starts_with(rows) && target_inputs == inputs
}

/// By the crate.
fn unrolled(target: &Lent, from: &Lent) -> Lent {
    let mut aig = to_aig(target);
    aig.unroll(&to_aig(from));
    of_aig(&aig)
}

/// The finished frames come before the counts.
fn expected_to(case: &Case) -> Outcome {
    let rebuilding = Rebuilding::from_to(case, OTHER, 0);
    let graph = Lent::of_case(case, OTHER, 0);
    let frames = case.scalar(FRAMES);
    let refusal = rebuilding.refusal().or_else(|| {
        // "above 4,096 frames: 4"
        (frames > MOST_FRAMES).then_some(Answer::BAD_ARGUMENT)
    });
    let (finished, mut outcome) = match refusal {
        Some(answer) => (0, rebuilding.refused(answer)),
        None => match frames_that_fit(&graph, &rebuilding.room(), frames) {
            Some(finished) => (finished, with_frames(&rebuilding, &graph, finished)),
            None => (0, without_copy(&rebuilding)),
        },
    };
    if refusal.is_none() && finished < frames {
        outcome.answer = Answer::NO_ROOM;
    }
    outcome.results.insert(0, finished);
    outcome
}

/// "if the copy itself doesn't fit, nothing is written and the number is 0"; the counts are 0 too.
fn without_copy(rebuilding: &Rebuilding) -> Outcome {
    let mut outcome = rebuilding.refused(Answer::NO_ROOM);
    outcome.results.fill(0);
    outcome
}

/// "at answer 5 the copy and the frames already finished stand"
fn with_frames(rebuilding: &Rebuilding, graph: &Lent, finished: u64) -> Outcome {
    let copy = of_aig(&to_aig(graph).unroll_to(finished as usize));
    rebuilding.done(&Rebuilt::from(copy))
}

/// How many of the frames fit, by the crate; none where the copy itself does not.
fn frames_that_fit(graph: &Lent, room: &Lent, frames: u64) -> Option<u64> {
    let from = to_aig(graph);
    let fits = |aig: &Aig| {
        let entries = entries(aig);
        (0..SLICES).all(|slice| entries[slice] <= room.room(slice))
    };
    let mut copy = from.clone();
    if !fits(&copy) {
        return None;
    }
    let mut finished = 0;
    while finished < frames {
        copy.unroll(&from);
        if !fits(&copy) {
            break;
        }
        finished += 1;
    }
    Some(finished)
}

fn entries(aig: &Aig) -> Entries {
    [
        aig.nodes.len(),
        aig.inputs.len(),
        aig.latchs.len(),
        aig.constraints.len(),
        aig.bads.len(),
        aig.outputs.len(),
        aig.justice.len(),
        aig.justice.iter().map(Vec::len).sum(),
        aig.fairness.len(),
    ]
}

#[cfg(test)]
mod tests {
    use super::*;
    use crate::calls::rebuilding::tests::{after, kinds_of_room, left, reached, room_for};
    use crate::construct::Table;
    use crate::graph::{BADS, FAIRNESS, WIDTH};
    use crate::refuse::is_sound;

    /// "Each latch input maps to the target's next, leaves that are no latch get a new input
    /// (orphans too), gates are rebuilt with folding, then latches take the mapped next of `from`
    /// and each root list grows by `from`'s mapped entries, justice by whole sets. Init stays."
    fn by_document(target: &Lent, from: &Lent) -> Lent {
        let mut table = Table::new(target.without_spare_room());
        let mut mapped: Vec<u32> = Vec::new();
        let edge = |mapped: &[u32], edge: u32| mapped[edge as usize / 2] ^ (edge % 2);
        for id in 0..from.counted(ROWS) {
            let mut latches = target.latches();
            let latch = latches.find(|[input, ..]| *input as usize == id);
            mapped.push(match (latch, from.kind(id)) {
                (Some([_, next, _]), _) => next,
                (None, Some(Kind::Leaf)) => 2 * table.input(),
                (None, Some(Kind::Gate(a, b))) => {
                    let (a, b) = (edge(&mapped, a), edge(&mapped, b));
                    table.and(a, b)
                }
                _ => 0,
            });
        }
        let mut made = table.graph();
        for (latch, [_, next, _]) in from.latches().enumerate() {
            made.words[LATCHES][3 * latch + 1] = edge(&mapped, next);
        }
        let edges = target.counted(EDGES) as u32;
        let ends = from.list(ENDS).iter();
        made.words[ENDS].extend(ends.map(|end| end + edges));
        for list in EDGE_LISTS {
            let entries = from.list(list).iter();
            made.words[list].extend(entries.map(|&e| edge(&mapped, e)));
        }
        made.count_all();
        made
    }

    fn graphs(case: &Case) -> [Lent; 2] {
        [
            Lent::of_case(case, 0, 0),
            Lent::of_case(case, OTHER, SLICES),
        ]
    }

    #[test]
    fn the_crate_and_document_01_agree_on_random_cases() {
        let mut held = 0;
        for seed in 0..3_000 {
            let [target, from] = graphs(&random(&mut Rng::new(seed), UNROLL));
            let is_sound = is_sound(&target) && is_sound(&from) && is_target(&target, &from);
            if !is_sound || from.counted(ROWS) > 300 {
                continue;
            }
            held += 1;
            let document = by_document(&target, &from);
            assert_eq!(unrolled(&target, &from), document, "seed {seed}");
        }
        assert!(held > 1_500, "{held}");
    }

    /// Frame by frame: from what the one has, the other has the next.
    #[test]
    fn the_crate_and_document_01_agree_over_many_frames() {
        for seed in 0..300 {
            let mut rng = Rng::new(seed);
            let graph = random_graph(&mut rng).without_spare_room();
            if graph.counted(ROWS) > 60 {
                continue;
            }
            let mut target = graph.clone();
            for frames in 0..12 {
                let crate_has = of_aig(&to_aig(&graph).unroll_to(frames));
                assert_eq!(crate_has, target, "seed {seed}");
                target = by_document(&target, &graph);
            }
        }
    }

    /// What makes a target wrong.
    fn bad_targets(target: &Lent, from: &Lent) -> Vec<String> {
        let mut kinds = Vec::new();
        let [target_rows, rows] = [target, from].map(|graph| graph.counted(ROWS));
        if target_rows < rows {
            kinds.push("fewer rows".into());
        } else if let Some(row) = (0..rows).find(|&i| target.row(i) != from.row(i)) {
            let gates = [target, from].map(|g| matches!(g.kind(row), Some(Kind::Gate(..))));
            kinds.push(format!("rows differ, gates {gates:?}"));
        } else {
            let [target_latches, latches] = [target, from].map(|g| g.counted(LATCHES));
            kinds.push(match target_latches.cmp(&latches) {
                std::cmp::Ordering::Less => "fewer latches".into(),
                std::cmp::Ordering::Equal => "other latches".into(),
                std::cmp::Ordering::Greater => "more latches".into(),
            });
        }
        kinds
    }

    fn kinds_of_unrolled(target: &Lent, from: &Lent, room: &Lent) -> Vec<String> {
        let made = unrolled(target, from);
        let mut kinds = kinds_of_room(&made, room);
        let [before, after] = [target, &made].map(|graph| graph.counted(ROWS));
        kinds.push(match before.cmp(&from.counted(ROWS)) {
            std::cmp::Ordering::Equal => "a first frame".into(),
            _ => "a later frame".into(),
        });
        let is_gate = |&id: &usize| matches!(from.kind(id), Some(Kind::Gate(..)));
        let gates = (0..from.counted(ROWS)).filter(is_gate).count();
        let built = after - before - (made.counted(INPUTS) - target.counted(INPUTS));
        kinds.push(match built {
            0 if gates > 0 => "all gates folded".into(),
            built if built < gates => "some gates folded".into(),
            _ => "no gate folded".into(),
        });
        if before == after {
            kinds.push("no row".into());
        }
        if !from.orphans().is_empty() {
            kinds.push("an orphan".into());
        }
        if from.counted(EDGES) > 0 && target.counted(EDGES) > 0 {
            kinds.push("ends shifted".into());
        }
        if before > 1_000 {
            kinds.push("large".into());
        }
        kinds
    }

    #[test]
    fn random_cases_reach_every_kind() {
        let reached = reached(&CALLS[0], 6_000, |case, outcome| {
            let [target, from] = graphs(case);
            let sound = [&target, &from].map(is_sound);
            let number = outcome.answer.number;
            let mut kinds = Vec::new();
            if matches!(number, 2 | 3) {
                kinds.push(format!("{number}, sound {sound:?}"));
            }
            let marks = case.slot(MARKS).len();
            let [used, used_too] = [&target, &from].map(|graph| graph.counted(ROWS));
            if sound == [true, true] && marks < used && marks >= used_too {
                kinds.push("marks short for the target".into());
            }
            if number == 4 {
                kinds.extend(bad_targets(&target, &from));
            }
            if matches!(number, 0 | 5) {
                kinds.extend(kinds_of_unrolled(&target, &from, &target));
            }
            kinds
        });
        for (answer, count) in [(0, 2_000), (1, 300), (2, 100), (3, 100), (4, 300), (5, 500)] {
            reached.at_least(&format!("answer {answer}"), count);
        }
        for number in [2, 3] {
            reached.at_least(&format!("{number}, sound [true, false]"), 20);
            reached.at_least(&format!("{number}, sound [false, true]"), 20);
            reached.at_least(&format!("{number}, sound [false, false]"), 1);
        }
        reached.at_least("marks short for the target", 10);
        reached.at_least("fewer rows", 30);
        reached.at_least("rows differ, gates [true, true]", 50);
        for latches in ["fewer", "other", "more"] {
            reached.at_least(&format!("{latches} latches"), 20);
        }
        for slice in (0..SLICES).filter(|&slice| slice != LATCHES) {
            reached.at_least(&format!("{slice} alone one short"), 5);
            reached.at_least(&format!("{slice} alone short"), 10);
        }
        for kind in ["exact", "room to spare", "a first frame", "a later frame"] {
            reached.at_least(kind, 300);
        }
        for kind in ["all", "some", "no"] {
            let gates = if kind == "no" { "gate" } else { "gates" };
            reached.at_least(&format!("{kind} {gates} folded"), 100);
        }
        for kind in ["no row", "an orphan", "ends shifted"] {
            reached.at_least(kind, 100);
        }
        reached.at_least("large", 5);
    }

    #[test]
    fn random_cases_of_frames_reach_every_kind() {
        let reached = reached(&CALLS[1], 4_000, |case, outcome| {
            let graph = Lent::of_case(case, OTHER, 0);
            let (frames, finished) = (case.scalar(FRAMES), outcome.results[0]);
            let frames = match frames {
                0..=2 => frames.to_string(),
                3..100 => "some".into(),
                100..4_096 => "many".into(),
                4_096 | 4_097 => frames.to_string(),
                _ => "above".into(),
            };
            let mut kinds = Vec::new();
            match outcome.answer.number {
                0 => kinds.push(format!("done, {frames}")),
                4 => kinds.push(format!("refused, {frames}")),
                5 if outcome.results[1] == 0 => kinds.push("no copy".into()),
                5 => kinds.push(format!("stand, {}", finished.min(3))),
                _ => {}
            }
            if matches!(outcome.answer.number, 0 | 5) && outcome.results[1] > 0 {
                let room = Lent::of_case(case, 0, 0);
                if finished < case.scalar(FRAMES) {
                    let next = to_aig(&graph).unroll_to(finished as usize + 1);
                    kinds.extend(kinds_of_room(&of_aig(&next), &room));
                } else {
                    let made = of_aig(&to_aig(&graph).unroll_to(finished as usize));
                    kinds.extend(kinds_of_room(&made, &room));
                }
            }
            kinds
        });
        for (answer, count) in [(0, 1_500), (1, 200), (2, 100), (3, 100), (4, 120), (5, 500)] {
            reached.at_least(&format!("answer {answer}"), count);
        }
        for (frames, count) in [
            ("0", 100),
            ("1", 300),
            ("2", 100),
            ("some", 300),
            ("many", 10),
        ] {
            reached.at_least(&format!("done, {frames}"), count);
        }
        reached.at_least("done, 4096", 5);
        reached.at_least("refused, 4097", 30);
        reached.at_least("refused, above", 30);
        reached.at_least("no copy", 100);
        for (frames, count) in [(0, 50), (1, 50), (2, 20), (3, 50)] {
            reached.at_least(&format!("stand, {frames}"), count);
        }
        for slice in (0..SLICES).filter(|&slice| slice != LATCHES) {
            reached.at_least(&format!("{slice} alone one short"), 2);
        }
        for kind in ["exact", "room to spare"] {
            reached.at_least(kind, 200);
        }
    }

    /// Input 1, latch 2, gate 3 = (2,5), orphan 4; the next of 2 is 3.
    fn graph() -> Lent {
        let mut graph = Lent::new();
        graph.words[ROWS].extend([LEAF, LEAF, [2, 5], LEAF].as_flattened());
        graph.words[INPUTS] = vec![1];
        graph.words[LATCHES] = vec![2, 6, 4];
        graph.words[BADS] = vec![5];
        graph.words[OUTPUTS] = vec![7];
        graph.words[ENDS] = vec![1, 3];
        graph.words[EDGES] = vec![4, 2, 8];
        graph.words[FAIRNESS] = vec![9];
        graph.count_all();
        graph
    }

    /// Rows 5 and 7 are copies of 1 and 4, row 6 is that of 3.
    fn one_frame() -> Lent {
        let mut graph = graph();
        graph.words[ROWS].extend([LEAF, [7, 10], LEAF].as_flattened());
        graph.words[INPUTS] = vec![1, 5, 7];
        graph.words[LATCHES] = vec![2, 12, 4];
        graph.words[BADS] = vec![5, 7];
        graph.words[OUTPUTS] = vec![7, 13];
        graph.words[ENDS] = vec![1, 3, 4, 6];
        graph.words[EDGES] = vec![4, 2, 8, 6, 10, 14];
        graph.words[FAIRNESS] = vec![9, 15];
        graph.count_all();
        graph
    }

    fn two_frames() -> Lent {
        let mut graph = one_frame();
        graph.words[ROWS].extend([LEAF, [13, 16], LEAF].as_flattened());
        graph.words[INPUTS] = vec![1, 5, 7, 8, 10];
        graph.words[LATCHES] = vec![2, 18, 4];
        graph.words[BADS] = vec![5, 7, 13];
        graph.words[OUTPUTS] = vec![7, 13, 19];
        graph.words[ENDS] = vec![1, 3, 4, 6, 7, 9];
        graph.words[EDGES] = vec![4, 2, 8, 6, 10, 14, 12, 16, 20];
        graph.words[FAIRNESS] = vec![9, 15, 21];
        graph.count_all();
        graph
    }

    /// The graph with garbage in the room for another, and beyond.
    fn grown_to(graph: &Lent, larger: &Lent, spare: usize) -> Lent {
        let mut graph = graph.clone();
        for (slice, words) in larger.words.iter().enumerate() {
            graph.words[slice].resize(words.len() + spare, 77);
        }
        graph
    }

    #[track_caller]
    fn wrote(outcome: &Outcome, made: &Lent, spare: usize) {
        for (slice, words) in made.words.iter().enumerate() {
            let written = [&words[..], &vec![77; spare]].concat();
            assert_eq!(after(outcome, slice), written, "{slice}");
        }
    }

    #[test]
    fn frames_by_hand() {
        for (target, made) in [(graph(), one_frame()), (one_frame(), two_frames())] {
            for spare in [0, 1] {
                let used = target.room(ROWS);
                let lent = grown_to(&target, &made, spare);
                let case = case(&lent, &graph(), vec![9; used + 1]);
                let outcome = expected(&case);
                assert_eq!(outcome.answer, Answer::DONE);
                assert_eq!(outcome.results, made.counts);
                wrote(&outcome, &made, spare);
                assert_eq!(
                    outcome.slots[OTHER..2 * SLICES],
                    case.slots[OTHER..2 * SLICES]
                );
                assert_eq!(after(&outcome, MARKS), [&vec![0; used][..], &[9]].concat());
            }
        }
    }

    #[test]
    fn copies_by_hand() {
        for (frames, made) in [(0, graph()), (1, one_frame()), (2, two_frames())] {
            for spare in [0, 1] {
                // the marks cover the given graph alone
                let case = case_to(&graph(), frames, &room_for(&made, spare), vec![9; 6]);
                let outcome = expected_to(&case);
                assert_eq!(outcome.answer, Answer::DONE);
                assert_eq!(outcome.results, [&[frames], &made.counts[..]].concat());
                wrote(&outcome, &made, spare);
                assert_eq!(
                    outcome.slots[OTHER..2 * SLICES],
                    case.slots[OTHER..2 * SLICES]
                );
                assert_eq!(after(&outcome, MARKS), [0, 0, 0, 0, 0, 9]);
            }
        }
    }

    /// "M13 latch 1 with next 3: one unroll makes next 2, no row."
    #[test]
    fn m13_adds_no_row() {
        let mut m13 = Lent::new();
        m13.words[ROWS].extend(LEAF);
        m13.words[LATCHES] = vec![1, 3, NONE];
        m13.count_all();
        let outcome = expected(&case(&m13, &m13, vec![9; 2]));
        assert_eq!(outcome.answer, Answer::DONE);
        assert_eq!(outcome.results, m13.counts);
        assert_eq!(after(&outcome, LATCHES), [1, 2, NONE]);
        for (frames, next) in [(0, 3), (1, 2), (2, 3), (4_095, 2), (4_096, 3)] {
            let outcome = expected_to(&case_to(&m13, frames, &room_for(&m13, 0), vec![9; 2]));
            assert_eq!(outcome.answer, Answer::DONE);
            assert_eq!(outcome.results, [&[frames], &m13.counts[..]].concat());
            assert_eq!(after(&outcome, LATCHES), [1, next, NONE]);
        }
    }

    #[test]
    fn no_target() {
        let refused = |change: fn(&mut Lent), is_target: bool| {
            let mut target = one_frame();
            change(&mut target);
            target.count_all();
            // no room: 5 comes after 4
            let used = target.room(ROWS).max(5);
            let case = case(&target, &graph(), vec![9; used]);
            let answer = match is_target {
                true => Answer::NO_ROOM,
                false => Answer::BAD_ARGUMENT,
            };
            assert_eq!(expected(&case), left(&case, answer, used));
        };
        // what stands behind the rows of `from`, and the lists but the latches, do not matter
        refused(|_| {}, true);
        refused(|t| t.words[ROWS][12..14].copy_from_slice(&[0, 0]), true);
        refused(|t| t.words[INPUTS] = vec![4], true);
        refused(|t| t.words[LATCHES] = vec![2, 0, NONE], true);
        refused(|t| t.words[BADS].clear(), true);
        refused(|t| t.words[ROWS][6..8].copy_from_slice(&[5, 2]), false);
        refused(|t| t.words[ROWS][8..10].copy_from_slice(&[0, 0]), false);
        refused(|t| t.words[LATCHES].clear(), false);
        refused(|t| t.words[LATCHES].extend([4, 0, NONE]), false);
        refused(|t| t.words[LATCHES][0] = 4, false);
        refused(|t| *t = Lent::new(), false);
        // two latches in another order
        let two = |latches: [u32; 6]| {
            let mut graph = Lent::new();
            graph.words[ROWS].extend(LEAF.repeat(2));
            graph.words[LATCHES] = latches.to_vec();
            graph.count_all();
            graph
        };
        let (first, second) = (two([1, 4, 0, 2, 3, 1]), two([2, 3, 1, 1, 4, 0]));
        let other_order = case(&first, &second, vec![9; 3]);
        assert_eq!(
            expected(&other_order),
            left(&other_order, Answer::BAD_ARGUMENT, 3)
        );
        let same = case(&first, &first, vec![9; 3]);
        assert_eq!(after(&expected(&same), LATCHES), [1, 3, 0, 2, 5, 1]);
    }

    #[test]
    fn refusals_in_their_order() {
        // no target: 4 comes last
        let refused = |change: fn(&mut Lent, &mut Lent), answer| {
            let (mut target, mut from) = (one_frame(), graph());
            target.words[LATCHES].clear();
            target.count_all();
            change(&mut target, &mut from);
            let case = case(&target, &from, vec![9; 8]);
            assert_eq!(expected(&case), left(&case, answer, 8));
        };
        refused(|_, _| {}, Answer::BAD_ARGUMENT);
        refused(
            |t, f| (t.words[ROWS][6], f.counts[ROWS]) = (6, 0),
            Answer::BAD_SIZES,
        );
        refused(
            |t, f| (t.words[ROWS][6], f.words[ROWS][7]) = (6, 6),
            Answer::bad_row(3),
        );
        let at = Answer::bad_entry(4, 1, 0);
        refused(|t, f| (t.words[BADS][1], f.words[ROWS][7]) = (16, 6), at);
        refused(|_, f| f.words[BADS][0] = 10, Answer::bad_entry(4, 0, 0));
        let marks = case(&one_frame(), &graph(), vec![9; 7]);
        assert_eq!(expected(&marks), left(&marks, Answer::BAD_SIZES, 8));
        for slice in (0..SLICES).filter(|&slice| one_frame().room(slice) > graph().room(slice)) {
            let mut short = grown_to(&graph(), &one_frame(), 0);
            short.words[slice].pop();
            let case = case(&short, &graph(), vec![9; 5]);
            assert_eq!(expected(&case), left(&case, Answer::NO_ROOM, 5));
        }
    }

    /// The frames that are finished stand; where the copy does not fit nothing is written.
    #[test]
    fn frames_that_do_not_fit() {
        let frames = [graph(), one_frame(), two_frames()];
        for (slice, width) in WIDTH.into_iter().enumerate() {
            for (finished, made) in frames.iter().enumerate() {
                // room for one entry less than one frame more has
                let mut room = room_for(&two_frames(), 0);
                let Some(next) = frames.get(finished + 1) else {
                    continue;
                };
                if next.room(slice) == made.room(slice) {
                    continue;
                }
                room.words[slice].truncate(width * next.room(slice) - 1);
                let outcome = expected_to(&case_to(&graph(), 2, &room, vec![9; 5]));
                assert_eq!(outcome.answer, Answer::NO_ROOM);
                let results = [&[finished as u64], &made.counts[..]].concat();
                assert_eq!(outcome.results, results);
                for (slice, words) in made.words.iter().enumerate() {
                    assert_eq!(after(&outcome, slice)[..words.len()], words[..]);
                    let beyond = &after(&outcome, slice)[words.len()..];
                    assert!(beyond.iter().all(|&word| word == 77));
                }
                assert_eq!(after(&outcome, MARKS), [0; 5]);
            }
            if graph().room(slice) > 0 {
                let mut room = room_for(&two_frames(), 0);
                room.words[slice].truncate(width * graph().room(slice) - 1);
                for frames in [0, 2] {
                    let case = case_to(&graph(), frames, &room, vec![9; 5]);
                    let mut nothing = left(&case, Answer::NO_ROOM, 5);
                    nothing.results = vec![0; 10];
                    assert_eq!(expected_to(&case), nothing);
                }
            }
        }
    }

    #[test]
    fn refusals_of_frames_in_their_order() {
        // too many frames and no room: 1 to 3 before 4 before 5
        let refused = |change: fn(&mut Lent), frames, marks, answer| {
            let mut graph = graph();
            change(&mut graph);
            let case = case_to(&graph, frames, &room_for(&Lent::new(), 0), vec![9; marks]);
            let mut expected = left(&case, answer, 5);
            expected.results.insert(0, 0);
            assert_eq!(expected_to(&case), expected);
        };
        for frames in [4_097, 1 << 32, u64::MAX] {
            refused(|_| {}, frames, 5, Answer::BAD_ARGUMENT);
            refused(|_| {}, frames, 4, Answer::BAD_SIZES);
            refused(|g| g.counts[BADS] = 2, frames, 5, Answer::BAD_SIZES);
            refused(|g| g.words[ROWS][7] = 6, frames, 5, Answer::bad_row(3));
            refused(
                |g| g.words[BADS][0] = 10,
                frames,
                5,
                Answer::bad_entry(4, 0, 0),
            );
        }
        let mut long = room_for(&one_frame(), 0);
        long.words[FAIRNESS].resize(65_537, 77);
        let case = case_to(&graph(), 1, &long, vec![9; 5]);
        let mut expected = left(&case, Answer::BAD_SIZES, 5);
        expected.results.insert(0, 0);
        assert_eq!(expected_to(&case), expected);
    }
}
