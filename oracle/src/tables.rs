//! Random tables for the constructors: they scan no row, and room decides.

use crate::case::Case;
use crate::damaged::hostile_count;
use crate::graph::{INPUTS, Lent, NONE, ROWS, SLICES, WIDTH};
use crate::rng::Rng;
use crate::wellformed::{self, FULL, garbage};

/// A number of used rows: mostly small.
pub fn used(rng: &mut Rng) -> usize {
    match rng.below(400) {
        0 => rng.between(1_000, 20_000),
        1..12 => rng.between(60, 300),
        12..60 => 1,
        _ => rng.between(2, 12),
    }
}

/// So many used rows and no room beyond them, well-formed or not. The lists are empty, and their
/// counts may be anything: not every list is lent.
pub fn table(rng: &mut Rng, used: usize) -> Lent {
    let mut graph = wellformed::rows(rng, used);
    if rng.one_in(4) {
        damage(rng, &mut graph.words[ROWS]);
    }
    if rng.one_in(2) {
        for list in INPUTS..SLICES {
            graph.counts[list] = match rng.below(4) {
                0 => hostile_count(rng, 4),
                _ => rng.below(9) as u64,
            };
        }
    }
    graph
}

/// Words that are no row: all of them, a few, or row 0.
fn damage(rng: &mut Rng, words: &mut [u32]) {
    match rng.below(4) {
        0 => words.fill_with(|| garbage(rng)),
        1 => words[0] = garbage(rng),
        _ => {
            for _ in 0..rng.between(1, 3) {
                words[rng.below(words.len())] = garbage(rng);
            }
        }
    }
}

/// Free entries where so many are needed: often just enough, or one short.
pub fn free(rng: &mut Rng, need: usize) -> usize {
    match rng.below(10) {
        0..4 => need,
        4..6 => need.saturating_sub(1),
        6 => 0,
        7 => rng.below(need + 1),
        8 => rng.below(4),
        _ => need + rng.between(1, 4),
    }
}

/// Lends free entries of garbage after the counted ones, and often a part of one.
pub fn lend_free(rng: &mut Rng, graph: &mut Lent, slice: usize, free: usize) {
    let words = free * WIDTH[slice] + rng.below(WIDTH[slice]);
    graph.words[slice].extend((0..words).map(|_| garbage(rng)));
}

/// A list to which an entry is added: its entries are anything, it is full or has little room, and
/// rarely it is at the limit or above it.
pub fn lend_list(rng: &mut Rng, graph: &mut Lent, list: usize) {
    let at_limit = rng.one_in(150);
    let (count, free) = if at_limit {
        let lent = rng.pick(&[FULL, FULL, FULL + 1]);
        let count = rng.pick(&[lent, lent - 1, lent - 2, 3]);
        (count, lent - count)
    } else {
        (rng.below(4), free(rng, 1))
    };
    let words = count * WIDTH[list];
    graph.words[list] = (0..words).map(|_| garbage(rng)).collect();
    graph.counts[list] = count as u64;
    lend_free(rng, graph, list, free);
    if rng.one_in(10) {
        graph.counts[list] = hostile_count(rng, graph.room(list));
    }
}

/// At times another number of used rows: 0, all that are lent, above them, or anything.
pub fn hostile_used(rng: &mut Rng, graph: &mut Lent) {
    if rng.one_in(10) {
        graph.counts[ROWS] = hostile_count(rng, graph.room(ROWS));
    }
}

/// An edge of one of the used rows, at times the last used ones, the first not used ones or
/// anything.
pub fn edge(rng: &mut Rng, used: usize) -> u32 {
    match rng.below(12) {
        0 => boundary_edge(rng, used),
        _ => wellformed::edge(rng, used),
    }
}

pub fn boundary_edge(rng: &mut Rng, used: usize) -> u32 {
    let first = 2 * used as u32;
    match rng.below(4) {
        0 => rng.pick(&[first - 2, first - 1]),
        1 | 2 => rng.pick(&[first, first + 1, first + 2]),
        _ => {
            let any = garbage(rng);
            rng.pick(&[NONE, NONE - 1, 1 << 31, any, any])
        }
    }
}

/// "An argument of 32 bits takes the scalar modulo 2^32": at times with high bits.
pub fn scalar(rng: &mut Rng, word: u32) -> u64 {
    let high = if rng.one_in(16) {
        rng.number() << 32
    } else {
        0
    };
    high | u64::from(word)
}

/// At times a slot more, which the call is not lent.
pub fn with_another_slot(rng: &mut Rng, case: Case) -> Case {
    let number = rng.below(22);
    let given = case.slots.iter().any(|slot| slot.number == number);
    if given || !rng.one_in(12) {
        return case;
    }
    let words = (0..rng.below(5)).map(|_| garbage(rng)).collect();
    case.lend(number, words)
}
