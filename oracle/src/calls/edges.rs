//! Calls 1 to 11: edges. They see no graph.

use super::{Call, LIST};
use crate::case::{Answer, Case, Outcome};
use crate::graph::{code, edge};
use crate::rng::Rng;
use crate::wellformed::garbage;
use aig::AigEdge;

/// "mapped above 2,147,483,647: 4"; no row above it has a code.
const MOST_ID: u32 = 2_147_483_647;

pub const CALLS: &[Call] = &[
    call(1, "edge::new", random_new, new),
    call(2, "edge::node_id", random_edge, node_id),
    call(3, "edge::compl", random_edge, compl),
    call(4, "edge::not", random_edge, not),
    call(5, "edge::not_if", random_edge_and_truth, not_if),
    call(6, "edge::constant", random_truth, constant),
    call(7, "edge::is_const", random_edge, is_const),
    call(8, "edge::is_constant", random_edge_and_truth, is_constant),
    call(9, "edge::try_to_constant", random_edge, try_to_constant),
    call(10, "edge::to_constant", random_edge, to_constant),
    call(11, "edge::map", random_map, map),
];

const fn call(
    number: u64,
    name: &'static str,
    random: fn(&mut Rng, u64) -> Case,
    expected: fn(&Case) -> Outcome,
) -> Call {
    Call {
        number,
        name,
        random,
        expected,
        counts: &[],
        ids: &[],
        id_slots: &[],
        edges: &[],
        edge_slots: &[],
    }
}

/// A word near a boundary of ids or edges, or any; at times with high bits, which do not count.
fn scalar_word(rng: &mut Rng) -> u64 {
    let word = match rng.below(4) {
        0 => rng.below(4) as u32,
        1 => rng.pick(&[MOST_ID - 1, MOST_ID, MOST_ID + 1, u32::MAX - 1, u32::MAX]),
        _ => garbage(rng),
    };
    let high = if rng.one_in(8) { rng.number() << 32 } else { 0 };
    high | u64::from(word)
}

/// "A truth value is true unless the scalar is 0."
fn scalar_truth(rng: &mut Rng) -> u64 {
    rng.pick(&[0, 0, 0, 1, 1, 2, 1 << 32, u64::MAX])
}

fn random_new(rng: &mut Rng, call: u64) -> Case {
    Case::new(call, &[scalar_word(rng), scalar_truth(rng)])
}

fn random_edge(rng: &mut Rng, call: u64) -> Case {
    Case::new(call, &[scalar_word(rng)])
}

fn random_edge_and_truth(rng: &mut Rng, call: u64) -> Case {
    Case::new(call, &[scalar_word(rng), scalar_truth(rng)])
}

fn random_truth(rng: &mut Rng, call: u64) -> Case {
    Case::new(call, &[scalar_truth(rng)])
}

fn random_map(rng: &mut Rng, call: u64) -> Case {
    let length = rng.pick(&[0, 1, 2, 5, 20]);
    let entry = |rng: &mut Rng| match rng.below(3) {
        0 => rng.pick(&[MOST_ID - 1, MOST_ID, MOST_ID + 1, u32::MAX]),
        1 => garbage(rng),
        _ => rng.below(100) as u32,
    };
    let map = (0..length).map(|_| entry(rng)).collect();
    let edge = match rng.below(6) {
        0 => scalar_word(rng),
        _ => rng.below(2 * length + 3) as u64,
    };
    Case::new(call, &[edge]).lend(LIST, map)
}

fn done(case: &Case, result: u64) -> Outcome {
    Outcome::reading(case, Answer::DONE, &[result])
}

fn refused(case: &Case) -> Outcome {
    Outcome::reading(case, Answer::BAD_ARGUMENT, &[0])
}

fn done_edge(case: &Case, result: AigEdge) -> Outcome {
    done(case, u64::from(code(result)))
}

/// The crate takes every id; here one above 2,147,483,647 has no code.
fn new(case: &Case) -> Outcome {
    if case.word(0) > MOST_ID {
        return refused(case);
    }
    done_edge(case, AigEdge::new(case.word(0) as usize, case.truth(1)))
}

fn node_id(case: &Case) -> Outcome {
    done(case, edge(case.word(0)).node_id() as u64)
}

fn compl(case: &Case) -> Outcome {
    done(case, edge(case.word(0)).compl().into())
}

fn not(case: &Case) -> Outcome {
    done_edge(case, !edge(case.word(0)))
}

fn not_if(case: &Case) -> Outcome {
    done_edge(case, edge(case.word(0)).not_if(case.truth(1)))
}

fn constant(case: &Case) -> Outcome {
    done_edge(case, AigEdge::constant(case.truth(0)))
}

fn is_const(case: &Case) -> Outcome {
    done(case, edge(case.word(0)).is_const().into())
}

fn is_constant(case: &Case) -> Outcome {
    done(case, edge(case.word(0)).is_constant(case.truth(1)).into())
}

fn try_to_constant(case: &Case) -> Outcome {
    done(
        case,
        edge(case.word(0)).try_to_constant().map_or(2, u64::from),
    )
}

/// "`to_constant` of another edge: 4", where the crate panics.
fn to_constant(case: &Case) -> Outcome {
    let edge = edge(case.word(0));
    if !edge.is_const() {
        return refused(case);
    }
    done(case, edge.to_constant().into())
}

/// "`map` uses a lent map; an id outside it or mapped above 2,147,483,647: 4."
fn map(case: &Case) -> Outcome {
    let edge = edge(case.word(0));
    match case.slot(LIST).get(edge.node_id()) {
        Some(&id) if id <= MOST_ID => done_edge(case, edge.map(&|id| case.slot(LIST)[id] as usize)),
        _ => refused(case),
    }
}
