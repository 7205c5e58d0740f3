//! Every call of FORMAT.md, made through the crate.

use super::build;
use super::script::{words, Case, Outcome};
use sulandiro::{edge, rows, ternary, Counts, Graph, Refusal, Room, Stopped};

const LISTS: usize = 9;

/// The outcome; none where there is no such call.
pub fn made(case: &mut Case) -> Option<Outcome> {
    match case.call {
        1..=11 => of_edge(case),
        20..=24 => of_row(case),
        40..=59 => build::made(case),
        30 | 60 | 61 | 100 => reading(case),
        90..=92 => simulating(case),
        70 | 80 => of_two(case),
        71 | 72 | 81 | 82 => to_output(case),
        83 | 84 => in_place(case),
        _ => None,
    }
}

fn of_edge(case: &Case) -> Option<Outcome> {
    let e = case.word(0);
    match case.call {
        1 => Outcome::of(edge::new(e, case.truth(1)).map(|e| [e.into()])),
        2 => Outcome::plain(edge::node_id(e)),
        3 => Outcome::plain(edge::compl(e)),
        4 => Outcome::plain(edge::not(e)),
        5 => Outcome::plain(edge::not_if(e, case.truth(1))),
        6 => Outcome::plain(edge::constant(case.truth(0))),
        7 => Outcome::plain(edge::is_const(e)),
        8 => Outcome::plain(edge::is_constant(e, case.truth(1))),
        9 => Outcome::plain(edge::try_to_constant(e).map_or(2, u64::from)),
        10 => Outcome::of(edge::to_constant(e).map(|value| [value.into()])),
        11 => Outcome::of(edge::map(e, &case.slots[18]).map(|e| [e.into()])),
        _ => None,
    }
}

fn of_row(case: &Case) -> Option<Outcome> {
    let (table, used, id) = (&case.slots[0], case.scalars[0] as usize, case.word(1));
    match case.call {
        20 => Outcome::of(rows::is_and(table, used, id).map(|is| [is.into()])),
        21 => Outcome::of(rows::is_leaf(table, used, id).map(|is| [is.into()])),
        22 => Outcome::of(rows::fanin0(table, used, id).map(|e| [e.into()])),
        23 => Outcome::of(rows::fanin1(table, used, id).map(|e| [e.into()])),
        24 => Outcome::of(rows::fanin(table, used, id).map(|(a, b)| [a.into(), b.into()])),
        _ => None,
    }
}

fn room(slots: &mut [Vec<u32>]) -> Room<'_> {
    let [rows, inputs, latches, constraints, bads, outputs, ends, edges, fairness] = slots else {
        unreachable!("a graph is nine slots")
    };
    Room {
        rows,
        inputs,
        latches,
        constraints,
        bads,
        outputs,
        ends,
        edges,
        fairness,
    }
}

fn graph(slots: &[Vec<u32>], counts: Counts) -> Graph<'_> {
    let [rows, inputs, latches, constraints, bads, outputs, ends, edges, fairness] = slots else {
        unreachable!("a graph is nine slots")
    };
    Graph {
        rows,
        inputs,
        latches,
        constraints,
        bads,
        outputs,
        ends,
        edges,
        fairness,
        counts,
    }
}

fn reading(case: &mut Case) -> Option<Outcome> {
    let (counts, shortcuts) = (case.counts(0), case.truth(LISTS));
    let (first, rest) = case.slots.split_at_mut(2 * LISTS);
    let graph = &graph(&first[..LISTS], counts);
    let [list, marks, stack, output, ..] = rest else {
        unreachable!("there are 32 slots")
    };
    match case.call {
        30 => Outcome::of(sulandiro::check(graph, marks).map(|()| [])),
        60 => Outcome::of(sulandiro::fanin_logic_cone(graph, list, output, marks).map(|()| [])),
        61 => Outcome::of(sulandiro::coi(graph, list, output, marks, stack).map(|()| [])),
        _ => {
            let written = sulandiro::cnf(graph, shortcuts, output, marks);
            Outcome::of(written.map(|words| [words as u64]))
        }
    }
}

fn bytes(words: &[u32]) -> Vec<u8> {
    let byte = |&word| u8::try_from(word).expect("bytes are given as numbers 0 to 255");
    words.iter().map(byte).collect()
}

fn simulating(case: &mut Case) -> Option<Outcome> {
    let [input, mut state, mut values] = [22, 23, 24].map(|slot| bytes(&case.slots[slot]));
    if case.call == 92 {
        let code = ternary::value(&values, case.scalars[0] as usize, case.word(1));
        return Outcome::of(code.map(|code| [code.into()]));
    }
    let counts = case.counts(0);
    let (first, rest) = case.slots.split_at_mut(2 * LISTS);
    let (graph, marks) = (&graph(&first[..LISTS], counts), &mut rest[1]);
    let answer = match case.call {
        90 => ternary::ternary_simulate(graph, &input, &state, &mut values, marks),
        _ => ternary::simulate(graph, &input, &mut state, &mut values, marks),
    };
    case.slots[23] = state.into_iter().map(u32::from).collect();
    case.slots[24] = values.into_iter().map(u32::from).collect();
    Outcome::of(answer.map(|()| []))
}

fn of_two(case: &mut Case) -> Option<Outcome> {
    let (mut counts, counts2) = (case.counts(0), case.counts(LISTS));
    let (first, rest) = case.slots.split_at_mut(LISTS);
    let (second, rest) = rest.split_at_mut(LISTS);
    let (target, other, marks) = (&mut room(first), &graph(second, counts2), &mut rest[1]);
    let answer = match case.call {
        70 => sulandiro::merge(target, &mut counts, other, marks),
        _ => sulandiro::unroll(target, &mut counts, other, marks),
    };
    Outcome::counted(answer.map(|()| []), &counts)
}

fn to_output(case: &mut Case) -> Option<Outcome> {
    let (counts, frames) = (case.counts(0), case.scalars[LISTS] as usize);
    let (first, rest) = case.slots.split_at_mut(LISTS);
    let (second, rest) = rest.split_at_mut(LISTS);
    let [_, marks, _, old, ..] = rest else {
        unreachable!("there are 32 slots")
    };
    if case.call == 81 {
        let copied = sulandiro::unroll_to(&graph(second, counts), frames, &mut room(first), marks);
        return unrolled(copied, frames);
    }
    let (graph, output) = (&graph(first, counts), &mut room(second));
    let made = match case.call {
        71 => sulandiro::reencode(graph, output, marks),
        72 => sulandiro::coi_refine(graph, output, old, marks),
        _ => sulandiro::aig_move(graph, output, marks),
    };
    // "refused, the counts of the first graph as they were given"
    Outcome::counted(made.map(|_| []), &made.unwrap_or(counts))
}

/// The finished frames come before the counts, also at a refusal.
fn unrolled(copied: Result<Counts, Stopped>, frames: usize) -> Option<Outcome> {
    let (refusal, finished, counts): (Option<Refusal>, usize, Counts) = match copied {
        Ok(counts) => (None, frames, counts),
        Err(stopped) => (Some(stopped.refusal), stopped.finished, stopped.counts),
    };
    let results = std::iter::once(finished as u64).chain(words(&counts));
    Some(Outcome {
        refusal,
        results: results.collect(),
    })
}

fn in_place(case: &mut Case) -> Option<Outcome> {
    let mut counts = case.counts(0);
    let (first, rest) = case.slots.split_at_mut(LISTS);
    let [marks, _, old, ..] = &mut rest[LISTS + 1..] else {
        unreachable!("there are 32 slots")
    };
    let graph = &mut room(first);
    if case.call == 83 {
        let bads = sulandiro::compress_property(graph, &mut counts, old, marks);
        return Outcome::counted(bads.map(|bads| [bads as u64]), &counts);
    }
    let answer = sulandiro::gate_init_to_constraint(graph, &mut counts, marks);
    Outcome::counted(answer.map(|()| []), &counts)
}
