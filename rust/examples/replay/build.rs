//! Calls 40 to 59: the constructors.

use super::script::{words, Case, Outcome};
use sulandiro::{build, Counts, Refusal};

const ARGUMENT: usize = 9;
const LIST: usize = 18;

pub fn made(case: &mut Case) -> Option<Outcome> {
    match case.call {
        40 => Outcome::of(build::new(&mut case.slots[0]).map(|counts| words(&counts))),
        41..=45 => leaf(case),
        54..=57 => node_of_a_list(case),
        _ => node_of_two_edges(case),
    }
}

fn leaf(case: &mut Case) -> Option<Outcome> {
    let mut n = case.counts(0);
    let counts = &mut n;
    let [a, b, c] = [0, 1, 2].map(|i| case.word(ARGUMENT + i));
    let [rows, inputs, latches, ..] = &mut case.slots;
    let id = match case.call {
        41 => build::new_leaf_node(rows, counts),
        42 => build::new_input(rows, inputs, counts),
        43 => build::add_input(rows, inputs, counts, a),
        44 => build::new_latch(rows, latches, counts, a, b),
        45 => build::add_latch(rows, latches, counts, a, b, c),
        _ => return None,
    };
    // the results of calls 43 and 45 are the counts alone: the id is the one given
    match case.call {
        43 | 45 => Outcome::counted(id.map(|id| same_id(id, a)), &n),
        _ => Outcome::counted(id.map(|id| [id.into()]), &n),
    }
}

fn same_id(id: u32, given: u32) -> [u64; 0] {
    assert_eq!(id, given, "a listed row keeps its id");
    []
}

type OfTwo = fn(&mut [u32], &mut Counts, u32, u32) -> Result<u32, Refusal>;

fn node_of_two_edges(case: &mut Case) -> Option<Outcome> {
    let node: OfTwo = match case.call {
        50 => build::trivial_new_and_node,
        51 => build::new_and_node,
        52 => build::trivial_new_or_node,
        53 => build::new_or_node,
        58 => build::new_imply_node,
        59 => build::new_eq_node,
        _ => return None,
    };
    let mut counts = case.counts(0);
    let [a, b] = [0, 1].map(|i| case.word(ARGUMENT + i));
    let edge = node(&mut case.slots[0], &mut counts, a, b);
    Outcome::counted(edge.map(|edge| [edge.into()]), &counts)
}

type OfList = fn(&mut [u32], &mut Counts, &[u32]) -> Result<u32, Refusal>;

fn node_of_a_list(case: &mut Case) -> Option<Outcome> {
    let node: OfList = match case.call {
        54 => build::trivial_new_ands_node,
        55 => build::new_ands_node,
        56 => build::trivial_new_ors_node,
        57 => build::new_ors_node,
        _ => return None,
    };
    let mut counts = case.counts(0);
    let (rows, rest) = case.slots.split_at_mut(LIST);
    let edge = node(&mut rows[0], &mut counts, &rest[0]);
    Outcome::counted(edge.map(|edge| [edge.into()]), &counts)
}
