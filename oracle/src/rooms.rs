//! Room for what a call writes: exactly enough, one entry short, more, or anything.

use crate::graph::{INPUTS, Lent, SLICES, WIDTH};
use crate::rng::Rng;
use crate::tables;
use crate::wellformed::{FULL, garbage};

/// Entries of each slice of a graph.
pub type Entries = [usize; SLICES];

/// The entries that are counted, where no count is above the room.
pub fn entries(graph: &Lent) -> Entries {
    std::array::from_fn(|slice| graph.counted(slice))
}

/// Lends a graph that has no room to spare some room for what it grows to.
pub fn grow(rng: &mut Rng, graph: &mut Lent, need: &Entries) {
    let room = room(rng, &entries(graph), need);
    for (slice, entries) in room.into_iter().enumerate() {
        let free = entries.saturating_sub(graph.room(slice));
        tables::lend_free(rng, graph, slice, free);
    }
}

/// The room of an output graph: garbage. Rarely a list is lent at the limit or above it.
pub fn output(rng: &mut Rng, need: &Entries) -> Lent {
    let mut graph = Lent {
        words: Default::default(),
        counts: [0; SLICES],
    };
    grow(rng, &mut graph, need);
    if rng.one_in(200) {
        let list = rng.between(INPUTS, SLICES - 1);
        let words = rng.pick(&[FULL, FULL + 1]) * WIDTH[list];
        graph.words[list].resize_with(words, || garbage(rng));
    }
    graph
}

/// A buffer of so many words: exactly full, one short, larger, empty or anything.
pub fn buffer(rng: &mut Rng, need: usize) -> Vec<u32> {
    let length = match rng.below(20) {
        0..12 => need,
        12..15 => need + rng.between(1, 9),
        15..18 => need.saturating_sub(1),
        18 => rng.below(need + 1),
        _ => 0,
    };
    (0..length).map(|_| garbage(rng)).collect()
}

/// In all slices enough, mostly; else one of those that grow is short, or many.
fn room(rng: &mut Rng, have: &Entries, need: &Entries) -> Entries {
    let mut room = *need;
    let growing: Vec<usize> = (0..SLICES).filter(|&s| need[s] > have[s]).collect();
    let kind = rng.below(20);
    if kind >= 8 && rng.one_in(2) {
        for entries in &mut room {
            *entries += rng.pick(&[0, 0, 1, 3]);
        }
    }
    if growing.is_empty() {
        return room;
    }
    let one = rng.pick(&growing);
    match kind {
        0..13 => {}
        13..16 => room[one] = need[one] - 1,
        16 => room[one] = rng.between(have[one], need[one] - 1),
        17 => room[one] = have[one],
        18 => {
            for slice in growing {
                room[slice] = have[slice] + tables::free(rng, need[slice] - have[slice]);
            }
        }
        _ => room = *have,
    }
    room
}
