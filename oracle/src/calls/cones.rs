//! Calls 60 and 61: the cones.

use super::{
    Call, Count, LIST, MARKS, OUTPUT as FLAGS, STACK, clear, given_otherwise, graph_counts, shorten,
};
use crate::case::{Answer, Case, Outcome};
use crate::graph::{BADS, LATCHES, Lent, NONE, OUTPUTS, ROWS, SLICES, edge, to_aig};
use crate::refuse::{refusal_with, too_long};
use crate::rng::Rng;
use crate::shapes;
use crate::tables;
use crate::wellformed::{self, FULL, garbage};
use aig::AigEdge;

/// The roots of the first are edges, those of the second are ids.
pub const LOGIC: u64 = 60;
pub const COI: u64 = 61;

pub const CALLS: &[Call] = &[
    Call {
        edge_slots: &[LIST],
        ..call(LOGIC, "cone::fanin_logic_cone")
    },
    Call {
        id_slots: &[LIST],
        ..call(COI, "coi::coi")
    },
];

const COUNTS: [Count; SLICES] = graph_counts(0, 0);

const fn call(number: u64, name: &'static str) -> Call {
    Call {
        number,
        name,
        random,
        expected,
        counts: &COUNTS,
        ids: &[],
        id_slots: &[],
        edges: &[],
        edge_slots: &[],
    }
}

/// The slices of marks that a call works in.
fn work(call: u64) -> &'static [usize] {
    match call {
        LOGIC => &[MARKS],
        _ => &[MARKS, STACK],
    }
}

/// The graph, the roots, the flags and the marks, every slice given.
pub fn case(call: u64, graph: &Lent, roots: &[u32], flags: &[u32], marks: &[u32]) -> Case {
    let mut case = Case::new(call, &graph.counts);
    case.slots.extend(graph.slots(0));
    case = case.lend(LIST, roots.to_vec()).lend(FLAGS, flags.to_vec());
    let work = work(call).iter();
    work.fold(case, |case, &slot| case.lend(slot, marks.to_vec()))
}

fn random(rng: &mut Rng, call: u64) -> Case {
    let (graph, marks) = shapes::marked(rng);
    let used = graph.counted(ROWS);
    let roots = random_roots(rng, call, &graph);
    let flags = wellformed::buffer(rng, used);
    let mut case = case(call, &graph, &roots, &flags, &marks);
    for slot in case.slots.iter_mut().filter(|slot| slot.number == STACK) {
        slot.words = wellformed::buffer(rng, used);
    }
    if rng.one_in(14) {
        let slot = rng.pick(&[&[FLAGS], work(call)].concat());
        shorten(rng, &mut case, slot, used);
    }
    let case = given_otherwise(rng, case);
    tables::with_another_slot(rng, case)
}

/// As edges or as ids. At times one of them is not used.
fn random_roots(rng: &mut Rng, call: u64, graph: &Lent) -> Vec<u32> {
    let used = graph.counted(ROWS).max(1);
    let ids = random_ids(rng, graph, used);
    let mut roots: Vec<u32> = ids
        .into_iter()
        .map(|id| match call {
            LOGIC => 2 * (id % (1 << 31)) + rng.below(2) as u32,
            _ => id,
        })
        .collect();
    if rng.one_in(7) {
        let bad = match call {
            LOGIC => tables::boundary_edge(rng, used),
            _ => boundary_id(rng, used),
        };
        let at = rng.below(roots.len() + 1);
        roots.insert(rng.pick(&[0, roots.len(), at]), bad);
    }
    roots
}

/// An id that is not used, mostly, or the last used one.
fn boundary_id(rng: &mut Rng, used: usize) -> u32 {
    let used = used as u32;
    match rng.below(4) {
        0 => used - 1,
        1 | 2 => rng.pick(&[used, used + 1, 2 * used, 2 * used + 1]),
        _ => {
            let any = garbage(rng);
            rng.pick(&[NONE, NONE - 1, 1 << 31, any])
        }
    }
}

/// None, one, some, many, one or two again and again; anywhere, or where something begins.
fn random_ids(rng: &mut Rng, graph: &Lent, used: usize) -> Vec<u32> {
    let count = match rng.below(400) {
        // the program has no room for a large graph and a long list
        0..2 if graph_words(graph) < 100_000 => rng.pick(&[FULL, FULL, FULL + 1]),
        2..30 => used.min(2_000),
        _ if used > 1_000 && rng.one_in(3) => rng.between(1_000, 2_000),
        30..60 => rng.between(20, 200),
        60..160 => rng.between(2, 6),
        160..200 => 0,
        _ => 1,
    };
    let from = match rng.below(if used > 1_000 { 3 } else { 6 }) {
        0 => rng.pick(&[OUTPUTS, BADS]),
        1 => LATCHES,
        _ => ROWS,
    };
    let few = [any_id(rng, used), any_id(rng, used)];
    let again = rng.one_in(6);
    let id = |rng: &mut Rng| match from {
        _ if again => rng.pick(&few),
        LATCHES if graph.counted(LATCHES) > 0 => graph.latch(rng.below(graph.counted(LATCHES)))[0],
        OUTPUTS | BADS if graph.counted(from) > 0 => rng.pick(graph.list(from)) / 2,
        _ => any_id(rng, used),
    };
    (0..count).map(|_| id(rng)).collect()
}

fn any_id(rng: &mut Rng, used: usize) -> u32 {
    wellformed::edge(rng, used) / 2
}

fn graph_words(graph: &Lent) -> usize {
    graph.words.iter().map(Vec::len).sum()
}

fn expected(case: &Case) -> Outcome {
    let graph = Lent::of_case(case, 0, 0);
    let answer = refusal(case, &graph).unwrap_or(Answer::DONE);
    let mut outcome = Outcome::reading(case, answer, &[]);
    if answer != Answer::BAD_SIZES {
        clear(&mut outcome, work(case.call), graph.counted(ROWS));
    }
    if answer == Answer::DONE {
        outcome.write(FLAGS, &flags(case, &graph));
    }
    outcome
}

fn refusal(case: &Case, graph: &Lent) -> Option<Answer> {
    if too_long(case.slot(LIST)) {
        return Some(Answer::BAD_SIZES);
    }
    let work = work(case.call).iter();
    let buffers: Vec<&[u32]> = [FLAGS].iter().chain(work).map(|&s| case.slot(s)).collect();
    refusal_with(graph, &buffers).or_else(|| {
        let used = graph.counts[ROWS];
        let mut ids = root_ids(case).into_iter();
        ids.any(|id| id >= used).then_some(Answer::BAD_ARGUMENT)
    })
}

/// The rows of the roots.
fn root_ids(case: &Case) -> Vec<u64> {
    let id = |&root: &u32| match case.call {
        LOGIC => root / 2,
        _ => root,
    };
    case.slot(LIST).iter().map(|r| u64::from(id(r))).collect()
}

/// By the crate. "Both return a flag 0 or 1 per used row."
fn flags(case: &Case, graph: &Lent) -> Vec<u32> {
    let aig = to_aig(graph);
    let roots = case.slot(LIST);
    if case.call == LOGIC {
        let edges: Vec<AigEdge> = roots.iter().map(|&root| edge(root)).collect();
        let flags = aig.fanin_logic_cone(&edges).into_iter();
        return flags.map(u32::from).collect();
    }
    let ids: Vec<usize> = roots.iter().map(|&id| id as usize).collect();
    let cone = aig.coi(&ids);
    let rows = aig.nodes_range_with_false();
    rows.map(|id| cone.contains(&id).into()).collect()
}

#[cfg(test)]
mod tests {
    use super::*;
    use crate::graph::{INPUTS, Kind, LEAF};
    use std::collections::{HashMap, HashSet};

    /// The rows that document 01 names, again and again until there is no more of them.
    fn by_document(call: u64, graph: &Lent, roots: &[u64]) -> Vec<u32> {
        let used = graph.counted(ROWS);
        let mut cone: HashSet<usize> = roots.iter().map(|&id| id as usize).collect();
        if call == COI {
            cone.insert(0);
        }
        loop {
            let mut below = Vec::new();
            for &id in &cone {
                if let Some(Kind::Gate(a, b)) = graph.kind(id) {
                    below.extend([a, b]);
                }
            }
            if call == COI {
                let latches = (0..graph.counted(LATCHES)).map(|i| graph.latch(i));
                let reached = latches.filter(|[input, ..]| cone.contains(&(*input as usize)));
                below.extend(reached.map(|[_, next, _]| next));
            }
            let before = cone.len();
            cone.extend(below.iter().map(|&edge| edge as usize / 2));
            if cone.len() == before {
                return (0..used).map(|id| cone.contains(&id).into()).collect();
            }
        }
    }

    #[test]
    fn the_crate_and_document_01_agree_on_random_cases() {
        for call in CALLS {
            let mut held = 0;
            for seed in 0..3_000 {
                let case = random(&mut Rng::new(seed), call.number);
                let graph = Lent::of_case(&case, 0, 0);
                if graph.counted(ROWS) < 300 && refusal(&case, &graph).is_none() {
                    held += 1;
                    let document = by_document(call.number, &graph, &root_ids(&case));
                    assert_eq!(flags(&case, &graph), document, "{case:?}");
                }
            }
            assert!(held > 1_500, "{} {held}", call.name);
        }
    }

    /// Of the cases of a call: how many have each answer, and how many are of some kind.
    fn reached(call: u64, seeds: u64) -> HashMap<String, usize> {
        let mut reached = HashMap::new();
        for seed in 0..seeds {
            let case = random(&mut Rng::new(seed), call);
            assert!(case.fits(), "seed {seed}");
            let graph = Lent::of_case(&case, 0, 0);
            let mut kinds = vec![format!("answer {}", expected(&case).answer.number)];
            let used = graph.counted(ROWS);
            let buffers = [FLAGS, MARKS, STACK].into_iter();
            let short = buffers.filter(|&slot| case.slot(slot).len() < used);
            kinds.extend(short.map(|slot| format!("short {slot}")));
            let roots = match case.slot(LIST).len() {
                0 => "none",
                1 => "one",
                FULL => "full",
                length if length > FULL => "too many",
                _ => "many",
            };
            kinds.push(format!("roots {roots}"));
            if kinds[0] == "answer 0" {
                kinds.push(format!("done, roots {roots}"));
                if used > 10_000 {
                    kinds.push("done, large".into());
                }
                let flagged = flags(&case, &graph).iter().sum::<u32>();
                if flagged > 1_000 && (call == LOGIC || graph.counted(LATCHES) > 1_000) {
                    kinds.push("done, long".into());
                }
                let other = [LOGIC, COI].map(|call| by_call(call, &case, &graph));
                if other[0] != other[1] {
                    kinds.push("done, cones differ".into());
                }
            }
            for kind in kinds {
                *reached.entry(kind).or_insert(0) += 1;
            }
        }
        reached
    }

    /// The flags of the rows of the roots by one call or the other.
    fn by_call(call: u64, case: &Case, graph: &Lent) -> Vec<u32> {
        let width = if call == LOGIC { 2 } else { 1 };
        let roots = root_ids(case).into_iter().map(|id| width * id as u32);
        let case = Case::new(call, &[]).lend(LIST, roots.collect());
        flags(&case, graph)
    }

    #[test]
    fn random_cases_reach_every_kind() {
        for (call, work) in [
            (LOGIC, vec![FLAGS, MARKS]),
            (COI, vec![FLAGS, MARKS, STACK]),
        ] {
            let reached = reached(call, 4_000);
            let at_least = |kind: &str, count: usize| {
                let found = reached.get(kind).copied().unwrap_or(0);
                assert!(found >= count, "{call} {kind}: {found}");
            };
            for (answer, count) in [(0, 2_000), (1, 200), (2, 100), (3, 100), (4, 200)] {
                at_least(&format!("answer {answer}"), count);
            }
            for slot in work {
                at_least(&format!("short {slot}"), 20);
            }
            for kind in ["none", "one", "many"] {
                at_least(&format!("done, roots {kind}"), 100);
            }
            at_least("done, roots full", 1);
            at_least("roots too many", 1);
            at_least("done, large", 3);
            at_least("done, long", 3);
            at_least("done, cones differ", 500);
        }
    }

    /// Inputs 1 and 2, an orphan 3, latches at 4 and 5, gates 6 = (2,8), 7 = (1,6), 8 = (4,13), 9 =
    /// (13,10). The next of 4 is not 9, that of 5 is 5; the init of 4 is 8, that of 5 is none.
    fn graph() -> Lent {
        let mut graph = Lent::new();
        let rows = [
            LEAF,
            LEAF,
            LEAF,
            LEAF,
            LEAF,
            [2, 8],
            [1, 6],
            [4, 13],
            [13, 10],
        ];
        graph.words[ROWS].extend(rows.as_flattened());
        graph.words[INPUTS] = vec![1, 2];
        graph.words[LATCHES] = vec![4, 19, 16, 5, 10, NONE];
        graph.count_all();
        graph
    }

    /// The answer, and the lines of flags, marks and, where it is lent, of the stack; the flags
    /// were 8, the others 9.
    type After = (Answer, Vec<u32>, Vec<u32>, Option<Vec<u32>>);

    fn after(case: &Case) -> After {
        let outcome = expected(case);
        assert_eq!(outcome.results, []);
        assert_eq!(outcome.slots[..=SLICES], case.slots[..=SLICES]);
        let words = |slot| {
            let mut slots = outcome.slots.iter();
            slots.find(|s| s.number == slot).map(|s| s.words.clone())
        };
        let flags = words(FLAGS).expect("flags are lent");
        let marks = words(MARKS).expect("marks are lent");
        (outcome.answer, flags, marks, words(STACK))
    }

    /// The rows that are flagged; the word beyond the used ones stays.
    #[track_caller]
    fn flagged(call: u64, roots: &[u32], rows: &[usize]) {
        let case = case(call, &graph(), roots, &[8; 11], &[9; 11]);
        let mut flags: Vec<u32> = (0..10).map(|id| rows.contains(&id).into()).collect();
        flags.push(8);
        let mut marks = vec![0; 10];
        marks.push(9);
        let stack = (call == COI).then(|| marks.clone());
        assert_eq!(after(&case), (Answer::DONE, flags, marks, stack));
    }

    #[test]
    fn cones_by_hand() {
        flagged(LOGIC, &[], &[]);
        flagged(COI, &[], &[0]);
        flagged(LOGIC, &[1], &[0]);
        flagged(COI, &[0], &[0]);
        flagged(LOGIC, &[3, 2, 3], &[1]);
        flagged(COI, &[1, 1], &[0, 1]);
        flagged(LOGIC, &[6], &[3]);
        // no latch is crossed
        flagged(LOGIC, &[8], &[4]);
        flagged(LOGIC, &[13], &[1, 4, 6]);
        flagged(LOGIC, &[14], &[0, 3, 7]);
        flagged(LOGIC, &[14, 17], &[0, 1, 2, 3, 4, 6, 7, 8]);
        // latches are crossed, and the gate of the init is not there
        flagged(COI, &[4], &[0, 1, 4, 5, 6, 9]);
        flagged(COI, &[5], &[0, 5]);
        flagged(COI, &[7], &[0, 3, 7]);
        flagged(COI, &[8], &[0, 1, 2, 4, 5, 6, 8, 9]);
        flagged(COI, &[9, 2], &[0, 1, 2, 4, 5, 6, 9]);
    }

    /// What is refused leaves the flags, and the marks too after 1.
    #[track_caller]
    fn refused(case: Case, answer: Answer) {
        let [flags, marks] = [FLAGS, MARKS].map(|slot| case.slot(slot).to_vec());
        let cleared = match answer {
            Answer::BAD_SIZES => marks,
            _ => [&[0; 10], &marks[10..]].concat(),
        };
        let stack = match answer {
            Answer::BAD_SIZES => case.slot(STACK).to_vec(),
            _ => cleared.clone(),
        };
        let stack = (case.call == COI).then_some(stack);
        assert_eq!(after(&case), (answer, flags, cleared, stack));
    }

    #[test]
    fn refusals_in_their_order() {
        for (call, unused) in [(LOGIC, 20), (COI, 10)] {
            let with = |change: fn(&mut Lent), roots: &[u32]| {
                let mut graph = graph();
                change(&mut graph);
                case(call, &graph, roots, &[8; 11], &[9; 11])
            };
            for roots in [[unused, 0], [0, unused], [NONE, 0], [1, unused + 1]] {
                refused(with(|_| {}, &roots), Answer::BAD_ARGUMENT);
                // 1, 2 and 3 before 4
                refused(with(|g| g.counts[ROWS] = 0, &roots), Answer::BAD_SIZES);
                refused(with(|g| g.counts[8] = 1, &roots), Answer::BAD_SIZES);
                refused(with(|g| g.words[ROWS][12] = 12, &roots), Answer::bad_row(6));
                let at = Answer::bad_entry(2, 1, 0);
                refused(with(|g| g.words[LATCHES][4] = 20, &roots), at);
            }
            let last = with(|_| {}, &[unused - 1]);
            assert_eq!(expected(&last).answer, Answer::DONE);
        }
    }

    #[test]
    fn refusals_by_size() {
        for call in [LOGIC, COI] {
            let whole = |roots: &[u32]| case(call, &graph(), roots, &[8; 10], &[9; 10]);
            assert_eq!(expected(&whole(&[1])).answer, Answer::DONE);
            for &slot in [FLAGS].iter().chain(work(call)) {
                let mut short = whole(&[1]);
                let at = short.slots.iter().position(|s| s.number == slot);
                short.slots[at.expect("it is lent")].words.pop();
                refused(short, Answer::BAD_SIZES);
            }
            assert_eq!(expected(&whole(&[1; FULL])).answer, Answer::DONE);
            refused(whole(&[1; FULL + 1]), Answer::BAD_SIZES);
        }
        // the first is not lent a second slice of marks
        let case = case(LOGIC, &graph(), &[], &[8; 10], &[9; 10]).lend(STACK, vec![9; 3]);
        assert_eq!(expected(&case).slots[SLICES + 3].words, [9; 3]);
    }
}
