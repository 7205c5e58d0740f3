//! Damaged graphs: a well-formed one in which one thing or several are broken.

use crate::graph::{
    CONSTRAINTS, EDGE_LISTS, EDGES, ENDS, INPUTS, LATCHES, LEAF, Lent, NONE, ROW_0, ROWS, SLICES,
    WIDTH,
};
use crate::rng::Rng;
use crate::wellformed::{self, FULL, Marked, Size, garbage};

/// One way to break a graph. It may find nothing to break, as in an empty list.
type Damage = fn(&mut Rng, &mut Marked);

const DAMAGES: [Damage; 18] = [
    any_word,
    any_slice,
    any_count,
    used_rows,
    short_marks,
    short_slice,
    boundary_in_row,
    first_row,
    broken_leaf,
    leaf_twice,
    no_leaf,
    latch_edge,
    // five lists share it
    list_edge,
    list_edge,
    any_end,
    falling_ends,
    sets_or_edges_alone,
    justice_edge,
];

pub fn marked(rng: &mut Rng, size: Size) -> Marked {
    let mut marked = wellformed::marked(rng, size);
    damage(rng, &mut marked);
    marked
}

pub fn damage(rng: &mut Rng, marked: &mut Marked) {
    if rng.one_in(200) {
        long_list(rng, marked);
        return;
    }
    let damages = rng.pick(&[1, 1, 1, 1, 2, 2, 3, 5]);
    for _ in 0..damages {
        rng.pick(&DAMAGES)(rng, marked);
    }
}

/// A count or a length that is likely to be wrong.
pub fn hostile_count(rng: &mut Rng, room: usize) -> u64 {
    let room = room as u64;
    match rng.below(6) {
        0 => 0,
        1 => rng.pick(&[room, room.saturating_sub(1)]),
        2 => room + 1,
        3 => rng.number() % (2 * room + 3),
        4 => rng.number(),
        _ => rng.pick(&[1 << 32, 1 << 63, u64::MAX, (1 << 32) + room, FULL as u64]),
    }
}

/// A word near the end of the used rows, as an edge or as an id, or anything.
fn hostile_word(rng: &mut Rng, graph: &Lent) -> u32 {
    let used = graph.counted(ROWS) as u32;
    match rng.below(3) {
        0 => rng.pick(&[used, 2 * used, 2 * used + 1]),
        1 => rng.pick(&[0, 1, used.wrapping_sub(1), (2 * used).wrapping_sub(1)]),
        _ => garbage(rng),
    }
}

/// An edge to a row that is not used, mostly the first such.
fn unused_edge(rng: &mut Rng, graph: &Lent) -> u32 {
    let first = 2 * graph.counted(ROWS) as u32;
    rng.pick(&[first, first + 1, first + 7, NONE, NONE - 1])
}

/// One of the counted entries, if there is one; the first and the last are likely.
fn entry(rng: &mut Rng, graph: &Lent, slice: usize) -> Option<usize> {
    let count = graph.counted(slice);
    let last = count.checked_sub(1)?;
    Some(match rng.below(4) {
        0 => 0,
        1 => last,
        _ => rng.below(count),
    })
}

fn any_word(rng: &mut Rng, (graph, _): &mut Marked) {
    let slice = rng.below(SLICES);
    let word = hostile_word(rng, graph);
    if !graph.words[slice].is_empty() {
        let at = rng.below(graph.words[slice].len());
        graph.words[slice][at] = word;
    }
}

fn any_slice(rng: &mut Rng, (graph, _): &mut Marked) {
    let slice = rng.below(SLICES);
    for at in 0..graph.words[slice].len() {
        graph.words[slice][at] = hostile_word(rng, graph);
    }
}

fn any_count(rng: &mut Rng, (graph, _): &mut Marked) {
    let slice = rng.below(SLICES);
    graph.counts[slice] = hostile_count(rng, graph.room(slice));
}

fn used_rows(rng: &mut Rng, (graph, _): &mut Marked) {
    graph.counts[ROWS] = hostile_count(rng, graph.room(ROWS));
}

fn short_marks(rng: &mut Rng, (graph, marks): &mut Marked) {
    let used = graph.counted(ROWS);
    let length = rng.pick(&[used.saturating_sub(1), used / 2, 0]);
    marks.truncate(length);
}

/// The room ends within the last counted entry or before it.
fn short_slice(rng: &mut Rng, (graph, _): &mut Marked) {
    let slice = rng.below(SLICES);
    let words = graph.counted(slice) * WIDTH[slice];
    let cut = rng.between(1, WIDTH[slice] + 1);
    graph.words[slice].truncate(words.saturating_sub(cut));
}

/// "A gate at row i is two edge codes, each below 2·i": a word at that boundary.
pub fn boundary(rng: &mut Rng, i: usize) -> u32 {
    let bound = 2 * i as u32;
    rng.pick(&[bound.wrapping_sub(1), bound, bound + 1, NONE - 1, NONE])
}

fn boundary_in_row(rng: &mut Rng, (graph, _): &mut Marked) {
    if let Some(i) = entry(rng, graph, ROWS) {
        graph.words[ROWS][2 * i + rng.below(2)] = boundary(rng, i);
    }
}

fn first_row(rng: &mut Rng, (graph, _): &mut Marked) {
    let [first, second] = ROW_0;
    let rows = [LEAF, [first, 1], [0, 0], [0, 1], [first - 1, second]];
    if graph.room(ROWS) > 0 {
        graph.words[ROWS][..2].copy_from_slice(&rng.pick(&rows));
    }
}

/// A row that is nearly a leaf, or row 0 at a later place.
fn broken_leaf(rng: &mut Rng, (graph, _): &mut Marked) {
    if let Some(i) = entry(rng, graph, ROWS) {
        let row = rng.pick(&[[NONE, 1], [NONE, NONE], [0, NONE], [1, NONE], ROW_0]);
        graph.words[ROWS][2 * i..2 * i + 2].copy_from_slice(&row);
    }
}

/// A leaf of one of the two lists once more, in the same list or in the other.
fn leaf_twice(rng: &mut Rng, (graph, _): &mut Marked) {
    let [from, to] = std::array::from_fn(|_| rng.pick(&[INPUTS, LATCHES]));
    let (Some(from_entry), Some(to_entry)) = (entry(rng, graph, from), entry(rng, graph, to))
    else {
        return;
    };
    let leaf = graph.words[from][from_entry * WIDTH[from]];
    graph.words[to][to_entry * WIDTH[to]] = leaf;
}

/// An input or the input of a latch that is row 0, a gate (or any row) or not used.
fn no_leaf(rng: &mut Rng, (graph, _): &mut Marked) {
    let list = rng.pick(&[INPUTS, LATCHES]);
    if let Some(at) = entry(rng, graph, list) {
        let used = graph.counted(ROWS) as u32;
        let any = rng.below(1 + used as usize) as u32;
        let id = rng.pick(&[0, any, any, used, used + 1, NONE]);
        graph.words[list][at * WIDTH[list]] = id;
    }
}

/// A bad next or a bad init; the none word as next is bad too.
fn latch_edge(rng: &mut Rng, (graph, _): &mut Marked) {
    if let Some(at) = entry(rng, graph, LATCHES) {
        let part = rng.between(1, 2);
        graph.words[LATCHES][3 * at + part] = unused_edge(rng, graph);
    }
}

fn list_edge(rng: &mut Rng, (graph, _): &mut Marked) {
    let list = rng.pick(&EDGE_LISTS);
    if let Some(at) = entry(rng, graph, list) {
        graph.words[list][at] = unused_edge(rng, graph);
    }
}

/// An end that is one off, above the edges or anything.
fn any_end(rng: &mut Rng, (graph, _): &mut Marked) {
    if let Some(at) = entry(rng, graph, ENDS) {
        let end = graph.words[ENDS][at];
        let edges = graph.counted(EDGES) as u32;
        let (below, anything) = (end.wrapping_sub(1), garbage(rng));
        graph.words[ENDS][at] =
            rng.pick(&[end.wrapping_add(1), below, edges, edges + 1, 0, anything]);
    }
}

fn falling_ends(rng: &mut Rng, (graph, _): &mut Marked) {
    let (Some(a), Some(b)) = (entry(rng, graph, ENDS), entry(rng, graph, ENDS)) else {
        return;
    };
    graph.words[ENDS].swap(a, b);
}

/// "edges without sets are bad at index 0"; sets without edges are good if every end is 0.
fn sets_or_edges_alone(rng: &mut Rng, (graph, _): &mut Marked) {
    match rng.below(3) {
        0 => graph.counts[ENDS] = 0,
        1 => graph.counts[EDGES] = 0,
        _ => {
            graph.counts[EDGES] = 0;
            graph.words[ENDS].fill(0);
        }
    }
}

/// A bad edge in the first set, the last set or another, and at times a second one later on.
fn justice_edge(rng: &mut Rng, (graph, _): &mut Marked) {
    for _ in 0..rng.between(1, 2) {
        if let Some(at) = entry(rng, graph, EDGES) {
            graph.words[EDGES][at] = unused_edge(rng, graph);
        }
    }
}

/// A list lent at the limit or one entry above it; latches with words to spare.
fn long_list(rng: &mut Rng, (graph, _): &mut Marked) {
    let list = rng.between(INPUTS, SLICES - 1);
    let entries = rng.pick(&[FULL, FULL + 1]);
    let spare = if list == LATCHES { rng.below(3) } else { 0 };
    graph.words[list].resize_with(entries * WIDTH[list] + spare, || garbage(rng));
    if list >= CONSTRAINTS && rng.one_in(4) {
        graph.counts[list] = entries as u64;
    }
}
