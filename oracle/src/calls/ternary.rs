//! Calls 90 to 92: three-valued simulation. A code is 0 false, 1 true, 2 unknown.

use super::{
    Call, Count, INPUT_BYTES, MARKS, STATE, VALUES, clear, given_otherwise, graph_counts, shorten,
};
use crate::case::{Answer, Case, Outcome};
use crate::damaged::hostile_count;
use crate::graph::{INPUTS, LATCHES, Lent, ROWS, SLICES, edge, to_aig};
use crate::refuse::{is_sound, refusal_with, short};
use crate::rng::Rng;
use crate::shapes;
use crate::tables;
use crate::wellformed::{self, FULL, Size};
use aig::{Aig, AigEdge, TernarySimulate};
use logicrs::Lbool;

pub const RUN: u64 = 90;
pub const STEP: u64 = 91;
pub const VALUE: u64 = 92;

pub const CALLS: &[Call] = &[
    of_graph(RUN, "ternary::ternary_simulate"),
    of_graph(STEP, "ternary::simulate"),
    Call {
        random: random_value,
        expected: value,
        counts: &[Count {
            slot: VALUES,
            scalar: 0,
            width: 1,
        }],
        edges: &[1],
        ..of_graph(VALUE, "ternary::value")
    },
];

const COUNTS: [Count; SLICES] = graph_counts(0, 0);

/// "a code above 2"
const MOST: u32 = 2;
/// Steps before the state that a random case begins with.
const STEPS: usize = 6;

const fn of_graph(number: u64, name: &'static str) -> Call {
    Call {
        number,
        name,
        random,
        expected,
        counts: &COUNTS,
        ids: &[],
        id_slots: &[],
        edges: &[],
        edge_slots: &[],
    }
}

/// The bytes that a simulation is lent, and the marks.
pub struct Lending {
    pub inputs: Vec<u32>,
    pub state: Vec<u32>,
    pub values: Vec<u32>,
    pub marks: Vec<u32>,
}

/// The graph and the bytes, every slice given.
pub fn case(call: u64, graph: &Lent, lending: Lending) -> Case {
    let mut case = Case::new(call, &graph.counts);
    case.slots.extend(graph.slots(0));
    case.lend(INPUT_BYTES, lending.inputs)
        .lend(STATE, lending.state)
        .lend(VALUES, lending.values)
        .lend(MARKS, lending.marks)
}

fn random(rng: &mut Rng, call: u64) -> Case {
    let (graph, marks) = shapes::marked(rng);
    let used = graph.counted(ROWS);
    let mut inputs = codes(rng, graph.counted(INPUTS));
    let mut state = random_state(rng, &graph);
    if rng.one_in(5) {
        // the program has no room for a large graph and long bytes
        let long = graph.words.iter().map(Vec::len).sum::<usize>() < 100_000;
        let bytes = if rng.one_in(2) {
            &mut inputs
        } else {
            &mut state
        };
        spoil(rng, bytes, long);
    }
    let length = wellformed::buffer_length(rng, used);
    let lending = Lending {
        inputs,
        state,
        values: (0..length).map(|_| garbage_byte(rng)).collect(),
        marks,
    };
    let mut case = case(call, &graph, lending);
    if rng.one_in(16) {
        let slot = rng.pick(&[VALUES, MARKS]);
        shorten(rng, &mut case, slot, used);
    }
    let case = given_otherwise(rng, case);
    tables::with_another_slot(rng, case)
}

/// So many codes, in one of several mixtures.
fn codes(rng: &mut Rng, length: usize) -> Vec<u32> {
    let one = rng.below(3) as u32;
    let mixture = rng.below(6);
    let mut code = || match mixture {
        0 => rng.below(2) as u32,
        1 => 2,
        2 if rng.one_in(8) => 2,
        2 => rng.below(2) as u32,
        3 if rng.one_in(4) => rng.below(2) as u32,
        3 => 2,
        4 => one,
        _ => rng.below(3) as u32,
    };
    (0..length).map(|_| code()).collect()
}

/// Any codes, or what the crate has after some steps from any codes.
fn random_state(rng: &mut Rng, graph: &Lent) -> Vec<u32> {
    let state = codes(rng, graph.counted(LATCHES));
    if !is_sound(graph) || rng.below(5) < 3 {
        return state;
    }
    let steps = rng.between(1, STEPS);
    let frames: Vec<_> = (0..steps)
        .map(|_| lbools(&codes(rng, graph.counted(INPUTS))))
        .collect();
    bytes(&state_after(&to_aig(graph), lbools(&state), &frames))
}

/// Wrong lengths, and codes that are none.
fn spoil(rng: &mut Rng, bytes: &mut Vec<u32>, long: bool) {
    match rng.below(8) {
        0 => bytes.push(rng.below(3) as u32),
        1 if !bytes.is_empty() => bytes.truncate(bytes.len() - 1),
        2 if long && rng.one_in(8) => bytes.resize(FULL + 1, 0),
        2 => bytes.clear(),
        3 => {
            let more = rng.between(2, 9);
            bytes.extend((0..more).map(|_| garbage_byte(rng)));
        }
        _ if bytes.is_empty() => bytes.push(3),
        _ => {
            let any = rng.below(bytes.len());
            let at = rng.pick(&[0, bytes.len() - 1, any]);
            let code = rng.between(3, 255) as u32;
            bytes[at] = rng.pick(&[3, 3, 255, 255, 4, code]);
        }
    }
}

fn garbage_byte(rng: &mut Rng) -> u32 {
    match rng.below(3) {
        0 => rng.below(4) as u32,
        1 => rng.pick(&[1, 3, 128, 255]),
        _ => rng.below(256) as u32,
    }
}

/// The values of a graph, or any bytes; used rows and edges as constructors are given them.
fn random_value(rng: &mut Rng, call: u64) -> Case {
    let mut values = if rng.one_in(2) {
        simulated(rng)
    } else {
        let used = tables::used(rng);
        codes(rng, used)
    };
    let used = values.len();
    for _ in 0..rng.pick(&[0, 0, 0, 1, used / 2]) {
        values[rng.below(used)] = garbage_byte(rng);
    }
    let spare = rng.pick(&[0, 0, 1, 5]);
    values.extend((0..spare).map(|_| garbage_byte(rng)));
    let edge = tables::edge(rng, used);
    let mut count = used as u64;
    if rng.one_in(10) {
        count = hostile_count(rng, values.len());
    }
    let scalars = [count, tables::scalar(rng, edge)];
    let mut case = Case::new(call, &scalars).lend(VALUES, values);
    if rng.one_in(12) {
        shorten(rng, &mut case, VALUES, used);
    }
    let case = given_otherwise(rng, case);
    tables::with_another_slot(rng, case)
}

/// What the crate has for the rows of a small graph.
fn simulated(rng: &mut Rng) -> Vec<u32> {
    let rows = rng.between(1, 40);
    let graph = wellformed::graph(rng, Size::Rows(rows));
    let inputs = codes(rng, graph.counted(INPUTS));
    let state = codes(rng, graph.counted(LATCHES));
    bytes(&to_aig(&graph).ternary_simulate(&lbools(&inputs), &lbools(&state)))
}

fn lbools(codes: &[u32]) -> Vec<Lbool> {
    codes.iter().map(|&code| lbool(code)).collect()
}

fn lbool(code: u32) -> Lbool {
    match code {
        0 => Lbool::FALSE,
        1 => Lbool::TRUE,
        _ => Lbool::UNKNOWN,
    }
}

fn bytes(values: &[Lbool]) -> Vec<u32> {
    values.iter().map(|&value| byte(value)).collect()
}

fn byte(value: Lbool) -> u32 {
    match value {
        Lbool::FALSE => 0,
        Lbool::TRUE => 1,
        _ => 2,
    }
}

/// The crate does not hand out its state: one step more shows it at the inputs of the latches.
fn state_after(aig: &Aig, state: Vec<Lbool>, frames: &[Vec<Lbool>]) -> Vec<Lbool> {
    let mut simulate = TernarySimulate::new(aig, state);
    for inputs in frames {
        simulate.simulate(inputs.clone());
    }
    simulate.simulate(vec![Lbool::UNKNOWN; aig.inputs.len()]);
    let inputs = aig.latchs.iter().map(|latch| AigEdge::from(latch.input));
    inputs.map(|input| simulate.value(input)).collect()
}

/// The values that the crate has after one step.
fn values_after(aig: &Aig, state: Vec<Lbool>, inputs: Vec<Lbool>) -> Vec<Lbool> {
    let mut simulate = TernarySimulate::new(aig, state);
    simulate.simulate(inputs);
    let rows = aig.nodes_range_with_false();
    rows.map(|id| simulate.value(AigEdge::from(id))).collect()
}

fn expected(case: &Case) -> Outcome {
    let graph = Lent::of_case(case, 0, 0);
    let answer = refusal(case, &graph).unwrap_or(Answer::DONE);
    let mut outcome = Outcome::reading(case, answer, &[]);
    if answer != Answer::BAD_SIZES {
        clear(&mut outcome, &[MARKS], graph.counted(ROWS));
    }
    if answer == Answer::DONE {
        let aig = to_aig(&graph);
        let [inputs, state] = [INPUT_BYTES, STATE].map(|slot| lbools(case.slot(slot)));
        if case.call == RUN {
            outcome.write(VALUES, &bytes(&aig.ternary_simulate(&inputs, &state)));
        } else {
            let values = values_after(&aig, state.clone(), inputs.clone());
            outcome.write(VALUES, &bytes(&values));
            outcome.write(STATE, &bytes(&state_after(&aig, state, &[inputs])));
        }
    }
    outcome
}

/// "Wrong lengths, a code above 2 in inputs, states [..]: 4."
fn refusal(case: &Case, graph: &Lent) -> Option<Answer> {
    let buffers = [case.slot(VALUES), case.slot(MARKS)];
    refusal_with(graph, &buffers).or_else(|| {
        let mut lists = [(INPUT_BYTES, INPUTS), (STATE, LATCHES)].into_iter();
        let is_bad = lists.any(|(slot, list)| {
            let bytes = case.slot(slot);
            bytes.len() as u64 != graph.counts[list] || bytes.iter().any(|&code| code > MOST)
        });
        is_bad.then_some(Answer::BAD_ARGUMENT)
    })
}

/// "`value` is lent the values and the used count only": 1 where no row is used or the values are
/// shorter, then "a code above 2 in [..] the one byte that `value` reads, or `value` of an edge not
/// used: 4".
fn value(case: &Case) -> Outcome {
    let (used, values) = (case.scalar(0), case.slot(VALUES));
    let edge = edge(case.word(1));
    let refused = |answer| Outcome::reading(case, answer, &[0]);
    if used == 0 || short(values, used) {
        return refused(Answer::BAD_SIZES);
    }
    if edge.node_id() as u64 >= used || values[edge.node_id()] > MOST {
        return refused(Answer::BAD_ARGUMENT);
    }
    let value = value_of(&values[..used as usize], edge);
    Outcome::reading(case, Answer::DONE, &[byte(value).into()])
}

/// By the crate. It has values from a simulation alone, and row 0 is false there; so these are
/// those of inputs, one row up.
fn value_of(values: &[u32], edge: AigEdge) -> Lbool {
    let mut aig = Aig::new();
    for _ in values {
        aig.new_input();
    }
    let mut simulate = TernarySimulate::new(&aig, Vec::new());
    simulate.simulate(lbools(values));
    simulate.value(AigEdge::new(edge.node_id() + 1, edge.compl()))
}

#[cfg(test)]
mod tests {
    use super::*;
    use crate::graph::{Kind, LEAF, NONE};
    use std::collections::{HashMap, HashSet};

    /// "as one table with rows and columns in the order false, true, unknown: 0 0 0, 0 1 2, 0 2 2.
    /// NOT swaps 0 and 1."
    const AND: [[u32; 3]; 3] = [[0, 0, 0], [0, 1, 2], [0, 2, 2]];
    const NOT: [u32; 3] = [1, 0, 2];

    fn of_edge(values: &[u32], edge: u32) -> u32 {
        let value = values[edge as usize / 2];
        if edge % 2 == 1 {
            NOT[value as usize]
        } else {
            value
        }
    }

    /// The values and the state after a step as document 01 has them.
    fn by_document(graph: &Lent, inputs: &[u32], state: &[u32]) -> (Vec<u32>, Vec<u32>) {
        let latches: Vec<[u32; 3]> = (0..state.len()).map(|i| graph.latch(i)).collect();
        let mut values: Vec<u32> = Vec::new();
        for id in 0..graph.counted(ROWS) {
            let is_id = |&listed: &u32| listed as usize == id;
            let value = match graph.kind(id) {
                Some(Kind::Gate(a, b)) => {
                    AND[of_edge(&values, a) as usize][of_edge(&values, b) as usize]
                }
                Some(Kind::Leaf) => {
                    let input = graph.list(INPUTS).iter().position(is_id);
                    let latch = latches.iter().position(|latch| is_id(&latch[0]));
                    match (input, latch) {
                        (Some(input), _) => inputs[input],
                        (_, Some(latch)) => state[latch],
                        _ => 2,
                    }
                }
                _ => 0,
            };
            values.push(value);
        }
        let nexts = latches.iter().map(|latch| of_edge(&values, latch[1]));
        let nexts = nexts.collect();
        (values, nexts)
    }

    fn after(outcome: &Outcome, slot: usize) -> &[u32] {
        let slot = outcome.slots.iter().find(|s| s.number == slot);
        slot.map_or(&[], |slot| &slot.words)
    }

    #[test]
    fn the_crate_and_document_01_agree_on_random_cases() {
        for call in [RUN, STEP] {
            let mut held = 0;
            for seed in 0..3_000 {
                let case = random(&mut Rng::new(seed), call);
                let graph = Lent::of_case(&case, 0, 0);
                let used = graph.counted(ROWS);
                let outcome = expected(&case);
                if used > 300 || outcome.answer != Answer::DONE {
                    continue;
                }
                held += 1;
                let (inputs, state) = (case.slot(INPUT_BYTES), case.slot(STATE));
                let (values, next) = by_document(&graph, inputs, state);
                let state = if call == RUN { state.to_vec() } else { next };
                assert_eq!(after(&outcome, VALUES)[..used], values, "{case:?}");
                assert_eq!(after(&outcome, STATE), state, "{case:?}");
                assert_eq!(after(&outcome, VALUES)[used..], case.slot(VALUES)[used..]);
            }
            assert!(held > 1_500, "{call} {held}");
        }
    }

    /// Frame by frame: from the state that the one has, the other has the next.
    #[test]
    fn the_crate_and_document_01_agree_over_many_frames() {
        for seed in 0..300 {
            let mut rng = Rng::new(seed);
            let latches = rng.between(1, 9);
            let graph = shapes::chains(&mut rng, latches);
            let aig = to_aig(&graph);
            let begin = codes(&mut rng, latches);
            let (mut state, mut frames) = (begin.clone(), Vec::new());
            for _ in 0..20 {
                let inputs = codes(&mut rng, graph.counted(INPUTS));
                (_, state) = by_document(&graph, &inputs, &state);
                frames.push(lbools(&inputs));
                let crate_has = state_after(&aig, lbools(&begin), &frames);
                assert_eq!(bytes(&crate_has), state, "seed {seed}");
            }
        }
    }

    /// Of the cases of a call: how many are of some kind.
    fn reached(call: u64, seeds: u64) -> HashMap<String, usize> {
        let mut reached = HashMap::new();
        for seed in 0..seeds {
            let case = random(&mut Rng::new(seed), call);
            assert!(case.fits(), "seed {seed}");
            let outcome = expected(&case);
            let mut kinds = vec![format!("answer {}", outcome.answer.number)];
            let graph = Lent::of_case(&case, 0, 0);
            let used = graph.counted(ROWS);
            let short = [VALUES, MARKS].into_iter();
            let short = short.filter(|&slot| case.slot(slot).len() < used);
            kinds.extend(short.map(|slot| format!("short {slot}")));
            if outcome.answer == Answer::BAD_ARGUMENT {
                kinds.extend(bad_arguments(&case, &graph));
            }
            if outcome.answer == Answer::DONE {
                kinds.extend(what_is_done(&case, &graph, &outcome));
            }
            for kind in kinds {
                *reached.entry(kind).or_insert(0) += 1;
            }
        }
        reached
    }

    fn bad_arguments(case: &Case, graph: &Lent) -> Vec<String> {
        let mut kinds = Vec::new();
        for (slot, list) in [(INPUT_BYTES, INPUTS), (STATE, LATCHES)] {
            let (bytes, count) = (case.slot(slot), graph.counted(list));
            if bytes.len() < count {
                kinds.push(format!("{slot} short"));
            }
            if bytes.len() > count {
                kinds.push(format!("{slot} long"));
            }
            let is_length = bytes.len() == count;
            for code in [3, 255] {
                if is_length && bytes.contains(&code) {
                    kinds.push(format!("{slot} code {code}"));
                }
            }
        }
        kinds
    }

    fn what_is_done(case: &Case, graph: &Lent, outcome: &Outcome) -> Vec<String> {
        let mut kinds = Vec::new();
        let used = graph.counted(ROWS);
        if used > 10_000 {
            kinds.push("large".into());
        }
        if graph.counted(LATCHES) > 1_000 {
            kinds.push("long".into());
        }
        for slot in [INPUT_BYTES, STATE] {
            let codes: HashSet<u32> = case.slot(slot).iter().copied().collect();
            kinds.push(format!("{slot} of {} codes", codes.len()));
        }
        let is_gate = |id: &usize| matches!(graph.kind(*id), Some(Kind::Gate(..)));
        let gates = (0..used).filter(is_gate);
        let values: HashSet<u32> = gates.map(|id| after(outcome, VALUES)[id]).collect();
        kinds.extend(values.iter().map(|value| format!("gate of {value}")));
        if after(outcome, STATE) != case.slot(STATE) {
            kinds.push("another state".into());
        }
        kinds
    }

    #[test]
    fn random_cases_reach_every_kind() {
        for call in [RUN, STEP] {
            let reached = reached(call, 4_000);
            let at_least = |kind: &str, count: usize| {
                let found = reached.get(kind).copied().unwrap_or(0);
                assert!(found >= count, "{call} {kind}: {found}");
            };
            for (answer, count) in [(0, 2_000), (1, 200), (2, 100), (3, 100), (4, 200)] {
                at_least(&format!("answer {answer}"), count);
            }
            for slot in [VALUES, MARKS] {
                at_least(&format!("short {slot}"), 20);
            }
            for slot in [INPUT_BYTES, STATE] {
                for kind in ["short", "long", "code 3", "code 255"] {
                    at_least(&format!("{slot} {kind}"), 10);
                }
                for codes in 0..=3 {
                    at_least(&format!("{slot} of {codes} codes"), 100);
                }
            }
            for value in 0..=2 {
                at_least(&format!("gate of {value}"), 500);
            }
            at_least("large", 2);
            at_least("long", 2);
            let another = reached.get("another state").copied().unwrap_or(0);
            assert_eq!(another > 500, call == STEP, "{another}");
        }
    }

    /// Input 1, orphan 2, latches at 3 and 4; gates 5 = (2,3), 6 = (2,7), 7 = (4,1), 8 = (9,13).
    /// The next of 3 is not 6, that of 4 is 3.
    fn graph() -> Lent {
        let mut graph = Lent::new();
        let rows = [LEAF, LEAF, LEAF, LEAF, [2, 3], [2, 7], [4, 1], [9, 13]];
        graph.words[ROWS].extend(rows.as_flattened());
        graph.words[INPUTS] = vec![1];
        graph.words[LATCHES] = vec![3, 13, 16, 4, 6, NONE];
        graph.count_all();
        graph
    }

    /// Two values and one mark more than rows.
    fn of(call: u64, graph: &Lent, inputs: &[u32], state: &[u32]) -> Case {
        let lending = Lending {
            inputs: inputs.to_vec(),
            state: state.to_vec(),
            values: vec![77; 11],
            marks: vec![9; 10],
        };
        case(call, graph, lending)
    }

    #[track_caller]
    fn done(input: u32, state: [u32; 2], values: [u32; 9], next: [u32; 2]) {
        for (call, next) in [(RUN, state), (STEP, next)] {
            let case = of(call, &graph(), &[input], &state);
            let outcome = expected(&case);
            assert_eq!(outcome.answer, Answer::DONE);
            assert_eq!(outcome.results, []);
            assert_eq!(after(&outcome, VALUES), [&values[..], &[77; 2]].concat());
            assert_eq!(after(&outcome, STATE), next);
            assert_eq!(after(&outcome, MARKS), [0, 0, 0, 0, 0, 0, 0, 0, 0, 9]);
            assert_eq!(outcome.slots[..=SLICES], case.slots[..=SLICES]);
        }
    }

    #[test]
    fn steps_by_hand() {
        done(0, [0, 1], [0, 0, 2, 0, 1, 0, 0, 2, 0], [1, 0]);
        done(1, [0, 0], [0, 1, 2, 0, 0, 0, 1, 2, 0], [0, 0]);
        done(1, [1, 0], [0, 1, 2, 1, 0, 0, 0, 2, 1], [1, 1]);
        // x AND NOT x is unknown where x is
        done(2, [0, 2], [0, 2, 2, 0, 2, 2, 2, 2, 2], [2, 0]);
        done(2, [1, 0], [0, 2, 2, 1, 0, 2, 0, 2, 1], [1, 1]);
        done(1, [2, 1], [0, 1, 2, 2, 1, 0, 2, 2, 0], [2, 2]);
    }

    #[track_caller]
    fn refused(case: &Case, answer: Answer) {
        let mut left = case.slots.clone();
        if answer != Answer::BAD_SIZES {
            left[SLICES + 3].words[..9].fill(0);
        }
        let outcome = expected(case);
        assert_eq!((outcome.answer, outcome.slots), (answer, left));
    }

    #[test]
    fn refusals_in_their_order() {
        let arguments: [(&[u32], &[u32]); 9] = [
            (&[], &[0, 0]),
            (&[0, 0], &[0, 0]),
            (&[0], &[]),
            (&[0], &[0]),
            (&[0], &[0, 0, 0]),
            (&[3], &[0, 0]),
            (&[255], &[0, 0]),
            (&[2], &[3, 2]),
            (&[2], &[2, 255]),
        ];
        for call in [RUN, STEP] {
            for (inputs, state) in arguments {
                let with = |change: fn(&mut Lent)| {
                    let mut graph = graph();
                    change(&mut graph);
                    of(call, &graph, inputs, state)
                };
                refused(&with(|_| {}), Answer::BAD_ARGUMENT);
                // 1, 2 and 3 before 4
                refused(&with(|g| g.counts[ROWS] = 0), Answer::BAD_SIZES);
                refused(&with(|g| g.counts[LATCHES] = 3), Answer::BAD_SIZES);
                refused(&with(|g| g.words[ROWS][10] = 10), Answer::bad_row(5));
                let at = Answer::bad_entry(1, 0, 0);
                refused(&with(|g| g.words[INPUTS][0] = 5), at);
            }
            for (slot, length) in [(VALUES, 8), (MARKS, 8)] {
                let mut short = of(call, &graph(), &[0], &[0, 0]);
                let at = short.slots.iter().position(|s| s.number == slot);
                short.slots[at.expect("it is lent")].words.truncate(length);
                refused(&short, Answer::BAD_SIZES);
            }
            // as many bytes as are counted, not as are lent
            let mut lent = graph();
            lent.words[INPUTS].push(7);
            lent.words[LATCHES].extend([7; 5]);
            let case = of(call, &lent, &[0], &[0, 0]);
            assert_eq!(expected(&case).answer, Answer::DONE);
        }
    }

    #[track_caller]
    fn has_value(used: u64, values: &[u32], edge: u64, answer: Answer, result: u64) {
        let case = Case::new(VALUE, &[used, edge]).lend(VALUES, values.to_vec());
        let outcome = value(&case);
        assert_eq!((outcome.answer, outcome.results), (answer, vec![result]));
        assert_eq!(outcome.slots, case.slots);
    }

    #[test]
    fn values_by_hand() {
        let done = |edge, result| has_value(5, &[0, 1, 2, 255, 1, 1], edge, Answer::DONE, result);
        for (edge, result) in [0, 1, 1, 0, 2, 2].into_iter().enumerate() {
            done(edge as u64, result);
        }
        done(8, 1);
        done((1 << 32) + 9, 0);
        // row 0 is read as it stands
        has_value(1, &[2], 1, Answer::DONE, 2);
        has_value(1, &[1], 1, Answer::DONE, 0);
        let refused = |used, values: &[u32], edge, answer| has_value(used, values, edge, answer, 0);
        for edge in [6, 7] {
            refused(5, &[0, 1, 2, 255, 1], edge, Answer::BAD_ARGUMENT);
            refused(5, &[0, 1, 2, 3, 1], edge, Answer::BAD_ARGUMENT);
        }
        for edge in [4, 5, NONE.into()] {
            refused(2, &[0, 1, 2], edge, Answer::BAD_ARGUMENT);
            // 1 before 4
            refused(0, &[0, 1, 2], edge, Answer::BAD_SIZES);
        }
        refused(0, &[], 0, Answer::BAD_SIZES);
        refused(1, &[], 0, Answer::BAD_SIZES);
        refused(3, &[0, 1], 0, Answer::BAD_SIZES);
        refused(1 << 32, &[0, 1], 0, Answer::BAD_SIZES);
        refused(u64::MAX, &[0, 1], 0, Answer::BAD_SIZES);
    }

    #[test]
    fn random_values_reach_every_answer_and_every_value() {
        let mut reached: HashMap<(u64, u64, u32), usize> = HashMap::new();
        for seed in 0..4_000 {
            let case = random_value(&mut Rng::new(seed), VALUE);
            assert!(case.fits(), "seed {seed}");
            let outcome = value(&case);
            let key = (outcome.answer.number, outcome.results[0], case.word(1) % 2);
            *reached.entry(key).or_default() += 1;
            if outcome.answer == Answer::DONE {
                let read = of_edge(&whole(&case), case.word(1));
                assert_eq!(outcome.results, [u64::from(read)]);
            }
        }
        for complement in [0, 1] {
            for key in [(0, 0), (0, 1), (0, 2), (1, 0), (4, 0)] {
                let key = (key.0, key.1, complement);
                assert!(reached.get(&key).is_some_and(|&n| n > 50), "{reached:?}");
            }
        }
    }

    /// The values, with no code above 2.
    fn whole(case: &Case) -> Vec<u32> {
        case.slot(VALUES).iter().map(|&v| v.min(MOST)).collect()
    }
}
