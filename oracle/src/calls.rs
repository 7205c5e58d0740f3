//! The calls of FORMAT.md, one file for each group of them. A group says how a random case is
//! made and what is expected of it.

mod build;
pub mod check;
pub mod clauses;
pub mod cones;
mod edges;
mod gates;
pub mod making;
pub mod merge;
pub mod property;
pub mod rebuilding;
pub mod reencode;
pub mod refine;
mod rows;
pub mod ternary;
pub mod unroll;

use crate::case::{Case, Outcome};
use crate::graph::{SLICES, WIDTH};
use crate::rng::Rng;

/// Slots of FORMAT.md: the list or map, the marks and the second slice of them (a stack), the words
/// that are written (flags, clauses, new-to-old, old bads), and the bytes.
pub const LIST: usize = 18;
pub const MARKS: usize = 19;
pub const STACK: usize = 20;
pub const OUTPUT: usize = 21;
pub const INPUT_BYTES: usize = 22;
pub const STATE: usize = 23;
pub const VALUES: usize = 24;

pub struct Call {
    pub number: u64,
    pub name: &'static str,
    pub random: fn(&mut Rng, call: u64) -> Case,
    pub expected: fn(&Case) -> Outcome,
    /// What shrinking has to know of the case.
    pub counts: &'static [Count],
    /// The scalars that are row numbers, and the slots of no graph that hold row numbers.
    pub ids: &'static [usize],
    pub id_slots: &'static [usize],
    /// The scalars that are edges, and the slots of no graph that hold edges.
    pub edges: &'static [usize],
    pub edge_slots: &'static [usize],
}

/// Which scalar counts the entries of a slot, and how many words an entry has.
#[derive(Debug, Clone, Copy)]
pub struct Count {
    pub slot: usize,
    pub scalar: usize,
    pub width: usize,
}

/// The counts of a graph that is lent from a slot on and counted from a scalar on.
pub const fn graph_counts(slot: usize, scalar: usize) -> [Count; SLICES] {
    let mut counts = [Count {
        slot,
        scalar,
        width: 0,
    }; SLICES];
    let mut slice = 0;
    while slice < SLICES {
        counts[slice].slot += slice;
        counts[slice].scalar += slice;
        counts[slice].width = WIDTH[slice];
        slice += 1;
    }
    counts
}

/// The counts of two graphs that are lent one after the other.
pub const fn two_graphs() -> [Count; 2 * SLICES] {
    let [first, second] = [graph_counts(0, 0), graph_counts(SLICES, SLICES)];
    let mut counts = [first[0]; 2 * SLICES];
    let mut slice = 0;
    while slice < SLICES {
        counts[slice] = first[slice];
        counts[SLICES + slice] = second[slice];
        slice += 1;
    }
    counts
}

pub fn all() -> impl Iterator<Item = &'static Call> {
    edges::CALLS
        .iter()
        .chain(rows::CALLS)
        .chain(check::CALLS)
        .chain(build::CALLS)
        .chain(gates::CALLS)
        .chain(cones::CALLS)
        .chain(merge::CALLS)
        .chain(reencode::CALLS)
        .chain(refine::CALLS)
        .chain(unroll::CALLS)
        .chain(property::CALLS)
        .chain(ternary::CALLS)
        .chain(clauses::CALLS)
}

/// The calls of a list of numbers such as `1,2,51`, in the order of FORMAT.md; `all` is all.
pub fn chosen(list: &str) -> Result<Vec<&'static Call>, String> {
    if list == "all" {
        return Ok(all().collect());
    }
    let numbers: Vec<&str> = list.split(',').collect();
    let is_number = |call: &Call, number: &str| call.number.to_string() == number;
    match numbers.iter().find(|n| !all().any(|c| is_number(c, n))) {
        Some(number) => Err(format!("there is no call {number}")),
        None => Ok(all()
            .filter(|c| numbers.iter().any(|n| is_number(c, n)))
            .collect()),
    }
}

/// The same slices in another way: "A slot that is not given is lent empty", and the order does
/// not matter.
fn given_otherwise(rng: &mut Rng, mut case: Case) -> Case {
    case.slots
        .retain(|slot| !slot.words.is_empty() || rng.one_in(2));
    if rng.one_in(4) {
        rng.shuffle(&mut case.slots);
    }
    case
}

/// Makes a slice shorter than the used rows.
fn shorten(rng: &mut Rng, case: &mut Case, slot: usize, used: usize) {
    let length = rng.pick(&[used.saturating_sub(1), used / 2, 0]);
    for slot in case.slots.iter_mut().filter(|s| s.number == slot) {
        slot.words.truncate(length);
    }
}

/// "Work marks are zero at exit over the rows used at entry, except after 1, when they are
/// untouched."
fn clear(outcome: &mut Outcome, work: &[usize], used: usize) {
    for &slot in work {
        outcome.write(slot, &vec![0; used]);
    }
}

/// The call of a case.
pub fn of(case: &Case) -> &'static Call {
    all()
        .find(|call| call.number == case.call)
        .expect("every case is made by a call")
}
