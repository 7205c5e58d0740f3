//! The refusals 1 to 3 of document 01 for a lent graph: plain rather than fast.

use crate::case::Answer;
use crate::graph::{
    BADS, CONSTRAINTS, EDGES, ENDS, FAIRNESS, INPUTS, Kind, LATCHES, Lent, NONE, OUTPUTS, ROWS,
    SLICES,
};
use std::collections::HashSet;

/// "Limits, on what is lent: at most 1,048,576 rows; at most 65,536 entries a list (justice sets
/// and justice edges each)".
pub const MOST_ROWS: usize = 1_048_576;
const MOST_ENTRIES: usize = 65_536;

/// The refusals of a call that is lent one graph and one slice of marks, in their order.
pub fn refusal(graph: &Lent, marks: &[u32]) -> Option<Answer> {
    refusal_with(graph, &[marks])
}

/// The same with several buffers of one word or byte a row.
pub fn refusal_with(graph: &Lent, buffers: &[&[u32]]) -> Option<Answer> {
    let used = graph.counts[ROWS];
    if bad_sizes(graph) || buffers.iter().any(|buffer| short(buffer, used)) {
        return Some(Answer::BAD_SIZES);
    }
    bad_contents(graph)
}

/// Answer 1 for the graph itself: "used rows 0 or above the lent rows, a limit passed by rows or
/// a list, a list count above its room".
pub fn bad_sizes(graph: &Lent) -> bool {
    bad_rows(graph.room(ROWS), graph.counts[ROWS])
        || (INPUTS..SLICES).any(|list| bad_list(graph, list))
}

/// Answer 1 for the rows alone: "used rows 0 or above the lent rows, a limit passed by rows".
pub fn bad_rows(lent: usize, used: u64) -> bool {
    used == 0 || used > lent as u64 || lent > MOST_ROWS
}

/// Answer 1 for one list: "a limit passed by [..] a list, a list count above its room".
pub fn bad_list(graph: &Lent, list: usize) -> bool {
    graph.room(list) > MOST_ENTRIES || graph.counts[list] > graph.room(list) as u64
}

/// Answer 1 for an output graph, which is lent as room alone: "a limit passed by rows or a list".
pub fn bad_room(room: &Lent) -> bool {
    room.room(ROWS) > MOST_ROWS || (INPUTS..SLICES).any(|list| room.room(list) > MOST_ENTRIES)
}

/// Answer 1 for a list that is an argument, which is counted by its length.
pub fn too_long(list: &[u32]) -> bool {
    list.len() > MOST_ENTRIES
}

/// Answer 1 for a buffer: "work marks, flags or value buffers shorter than the used rows".
pub fn short(buffer: &[u32], used: u64) -> bool {
    (buffer.len() as u64) < used
}

/// Has the graph itself no answer 1, 2 or 3?
pub fn is_sound(graph: &Lent) -> bool {
    !bad_sizes(graph) && bad_contents(graph).is_none()
}

/// Answers 2 and 3, of a graph that has no answer 1.
pub fn bad_contents(graph: &Lent) -> Option<Answer> {
    bad_row(graph).or_else(|| bad_entry(graph))
}

/// "a used row is none of the three kinds at its place", "smallest such row".
pub fn bad_row(graph: &Lent) -> Option<Answer> {
    let row = (0..graph.counted(ROWS)).find(|&i| graph.kind(i).is_none())?;
    Some(Answer::bad_row(row as u64))
}

/// "Lists are numbered 1 to 7 in the order above; the place is that of the first bad entry".
/// The order is "inputs (ids), latches, constraints, bads, outputs, justice [..], fairness".
fn bad_entry(graph: &Lent) -> Option<Answer> {
    let mut listed = HashSet::new();
    bad_input(graph, &mut listed)
        .or_else(|| bad_latch(graph, &mut listed))
        .or_else(|| bad_edge(graph, CONSTRAINTS, 3))
        .or_else(|| bad_edge(graph, BADS, 4))
        .or_else(|| bad_edge(graph, OUTPUTS, 5))
        .or_else(|| bad_end(graph))
        .or_else(|| bad_justice_edge(graph))
        .or_else(|| bad_edge(graph, FAIRNESS, 7))
}

fn bad_input(graph: &Lent, listed: &mut HashSet<u32>) -> Option<Answer> {
    let mut inputs = graph.list(INPUTS).iter();
    let index = inputs.position(|&id| !is_new_leaf(graph, id, listed))?;
    Some(Answer::bad_entry(1, index as u64, 0))
}

fn bad_latch(graph: &Lent, listed: &mut HashSet<u32>) -> Option<Answer> {
    let mut latches = (0..graph.counted(LATCHES)).map(|i| graph.latch(i));
    // "init (an edge, or 4294967295 for none)"; next has no such word
    let index = latches.position(|[input, next, init]| {
        !is_new_leaf(graph, input, listed)
            || !is_used(graph, next)
            || !(init == NONE || is_used(graph, init))
    })?;
    Some(Answer::bad_entry(2, index as u64, 0))
}

/// "each input id and latch input is a used leaf, and no leaf is listed twice over inputs and
/// latches together"; "A leaf listed twice is bad at its later mention."
fn is_new_leaf(graph: &Lent, id: u32, listed: &mut HashSet<u32>) -> bool {
    let used = (id as usize) < graph.counted(ROWS);
    used && graph.kind(id as usize) == Some(Kind::Leaf) && listed.insert(id)
}

/// "every edge has id below the used count"
fn is_used(graph: &Lent, edge: u32) -> bool {
    ((edge / 2) as usize) < graph.counted(ROWS)
}

fn bad_edge(graph: &Lent, slice: usize, number: u64) -> Option<Answer> {
    let mut edges = graph.list(slice).iter();
    let index = edges.position(|&edge| !is_used(graph, edge))?;
    Some(Answer::bad_entry(number, index as u64, 0))
}

/// "All ends are checked before any edge." "A bad end is below the one before, above the edge
/// count, or last and not equal to it; edges without sets are bad at index 0."
fn bad_end(graph: &Lent) -> Option<Answer> {
    let ends = graph.list(ENDS);
    let edges = graph.counted(EDGES);
    if ends.is_empty() && edges > 0 {
        return Some(Answer::bad_entry(6, 0, 0));
    }
    let index = (0..ends.len()).find(|&i| {
        let falls = i > 0 && ends[i] < ends[i - 1];
        let above = ends[i] as usize > edges;
        let last = i + 1 == ends.len();
        falls || above || (last && ends[i] as usize != edges)
    })?;
    Some(Answer::bad_entry(6, index as u64, 0))
}

/// "for a justice edge [..] the index is the set's and the second is 1 + the position in the
/// set"; the ends are good here.
fn bad_justice_edge(graph: &Lent) -> Option<Answer> {
    let mut start = 0;
    for (set, &end) in graph.list(ENDS).iter().enumerate() {
        let edges = &graph.list(EDGES)[start..end as usize];
        if let Some(position) = edges.iter().position(|&edge| !is_used(graph, edge)) {
            return Some(Answer::bad_entry(6, set as u64, 1 + position as u64));
        }
        start = end as usize;
    }
    None
}

#[cfg(test)]
mod tests {
    use super::*;
    use crate::graph::LEAF;
    use crate::rng::Rng;
    use crate::wellformed::{self, Size};

    /// Leaves 1 to 3, gates 4 = (2,4) and 5 = (9,3); every list has an entry, and the second of
    /// three justice sets is empty.
    fn good() -> Lent {
        let mut graph = Lent::new();
        graph.words[ROWS].extend([LEAF, LEAF, LEAF, [2, 4], [9, 3]].as_flattened());
        graph.words[INPUTS] = vec![1, 2];
        graph.words[LATCHES] = vec![3, 10, NONE];
        graph.words[CONSTRAINTS] = vec![1];
        graph.words[BADS] = vec![10];
        graph.words[OUTPUTS] = vec![11, 8];
        graph.words[ENDS] = vec![1, 1, 3];
        graph.words[EDGES] = vec![2, 4, 6];
        graph.words[FAIRNESS] = vec![0];
        graph.count_all();
        graph
    }

    const FINE: Option<Answer> = None;
    const SIZES: Option<Answer> = Some(Answer::BAD_SIZES);

    const fn row(row: u64) -> Option<Answer> {
        Some(Answer::bad_row(row))
    }

    const fn at(list: u64, index: u64, second: u64) -> Option<Answer> {
        Some(Answer::bad_entry(list, index, second))
    }

    /// Words set to other ones: slice, index, word.
    #[track_caller]
    fn words(changes: &[(usize, usize, u32)], expected: Option<Answer>) {
        let mut graph = good();
        for &(slice, index, word) in changes {
            graph.words[slice][index] = word;
        }
        assert_eq!(refusal(&graph, &[9; 6]), expected);
    }

    /// Counts set to other ones: slice, count.
    #[track_caller]
    fn counts(changes: &[(usize, u64)], expected: Option<Answer>) {
        let mut graph = good();
        for &(slice, count) in changes {
            graph.counts[slice] = count;
        }
        assert_eq!(refusal(&graph, &[9; 6]), expected);
    }

    /// A slice lent with another number of words, garbage beyond its own.
    #[track_caller]
    fn lent(slice: usize, length: usize, expected: Option<Answer>) {
        let mut graph = good();
        graph.words[slice].resize(length, 77);
        assert_eq!(refusal(&graph, &[9; 6]), expected);
    }

    #[test]
    fn sizes() {
        counts(&[], FINE);
        counts(&[(ROWS, 0)], SIZES);
        counts(&[(ROWS, 7)], SIZES);
        counts(&[(ROWS, u64::MAX)], SIZES);
        for slice in 0..SLICES {
            counts(&[(slice, good().counts[slice] + 1)], SIZES);
            counts(&[(slice, 1 << 63)], SIZES);
        }
        // an odd last word is none, and so is a part of a latch
        lent(ROWS, 11, SIZES);
        lent(ROWS, 13, FINE);
        lent(LATCHES, 2, SIZES);
        lent(LATCHES, 5, FINE);
        // the limit is on what is lent
        lent(INPUTS, 65_536, FINE);
        lent(INPUTS, 65_537, SIZES);
        lent(LATCHES, 3 * 65_536 + 2, FINE);
        lent(LATCHES, 3 * 65_537, SIZES);
        lent(ENDS, 65_536, FINE);
        lent(ENDS, 65_537, SIZES);
        lent(EDGES, 65_537, SIZES);
        lent(FAIRNESS, 65_537, SIZES);
        lent(ROWS, 2 * 1_048_576 + 1, FINE);
        lent(ROWS, 2 * 1_048_577, SIZES);
    }

    #[test]
    fn marks() {
        assert_eq!(refusal(&good(), &[0; 5]), SIZES);
        assert_eq!(refusal(&good(), &[0; 7]), FINE);
    }

    #[test]
    fn rows() {
        words(&[(ROWS, 0, NONE)], row(0));
        words(&[(ROWS, 1, 1)], row(0));
        words(&[(ROWS, 3, 1)], row(1));
        // row 0 stands at no other place
        words(&[(ROWS, 6, NONE - 1)], row(3));
        // gate 4: below 8
        words(&[(ROWS, 8, 7)], FINE);
        words(&[(ROWS, 8, 8)], row(4));
        words(&[(ROWS, 9, 9)], row(4));
        words(&[(ROWS, 10, NONE)], row(5));
        // the smallest of two
        words(&[(ROWS, 10, NONE), (ROWS, 8, 8)], row(4));
        // rows before lists
        words(&[(ROWS, 10, 10), (INPUTS, 0, 0)], row(5));
    }

    #[test]
    fn sizes_before_rows() {
        let mut graph = good();
        graph.words[ROWS][0] = 0;
        graph.counts[FAIRNESS] += 1;
        assert_eq!(refusal(&graph, &[9; 6]), SIZES);
    }

    #[test]
    fn leaves() {
        words(&[(INPUTS, 0, 0)], at(1, 0, 0));
        words(&[(INPUTS, 1, 4)], at(1, 1, 0));
        words(&[(INPUTS, 0, 6)], at(1, 0, 0));
        words(&[(INPUTS, 0, NONE)], at(1, 0, 0));
        // bad at the later mention
        words(&[(INPUTS, 1, 1)], at(1, 1, 0));
        words(&[(LATCHES, 0, 2)], at(2, 0, 0));
        // an orphan is allowed
        counts(&[(INPUTS, 1)], FINE);
        counts(&[(LATCHES, 0)], FINE);
    }

    #[test]
    fn latches() {
        words(&[(LATCHES, 0, 5)], at(2, 0, 0));
        words(&[(LATCHES, 1, 11)], FINE);
        words(&[(LATCHES, 1, 12)], at(2, 0, 0));
        words(&[(LATCHES, 1, NONE)], at(2, 0, 0));
        words(&[(LATCHES, 2, 11)], FINE);
        words(&[(LATCHES, 2, 12)], at(2, 0, 0));
        words(&[(LATCHES, 2, NONE - 1)], at(2, 0, 0));
    }

    #[test]
    fn edges() {
        words(&[(CONSTRAINTS, 0, 12)], at(3, 0, 0));
        words(&[(BADS, 0, 13)], at(4, 0, 0));
        words(&[(OUTPUTS, 1, 12)], at(5, 1, 0));
        words(&[(FAIRNESS, 0, NONE)], at(7, 0, 0));
        // fewer used rows: row 5 is the next of the latch, then a bad, then an output
        counts(&[(ROWS, 5)], at(2, 0, 0));
        counts(&[(ROWS, 5), (LATCHES, 0)], at(4, 0, 0));
        counts(&[(ROWS, 5), (LATCHES, 0), (BADS, 0)], at(5, 0, 0));
        // the first of several lists
        words(&[(FAIRNESS, 0, 12), (EDGES, 2, 12)], at(6, 2, 2));
        words(&[(EDGES, 0, 12), (OUTPUTS, 0, 12)], at(5, 0, 0));
        words(&[(OUTPUTS, 0, 12), (LATCHES, 1, 12)], at(2, 0, 0));
    }

    #[test]
    fn justice() {
        // falls, is above the edge count, is last and not equal to it
        words(&[(ENDS, 0, 2)], at(6, 1, 0));
        words(&[(ENDS, 1, 4)], at(6, 1, 0));
        words(&[(ENDS, 2, 2)], at(6, 2, 0));
        counts(&[(EDGES, 2)], at(6, 2, 0));
        counts(&[(ENDS, 2)], at(6, 1, 0));
        // edges without sets, and sets without edges
        counts(&[(ENDS, 0)], at(6, 0, 0));
        counts(&[(ENDS, 0), (EDGES, 0)], FINE);
        counts(&[(EDGES, 0)], at(6, 0, 0));
        // the index is the set's, the second is 1 + the position in the set
        words(&[(EDGES, 0, 12)], at(6, 0, 1));
        words(&[(EDGES, 1, 12)], at(6, 2, 1));
        words(&[(EDGES, 2, 12)], at(6, 2, 2));
        words(&[(EDGES, 2, 12), (EDGES, 1, 13)], at(6, 2, 1));
        // all ends before any edge
        words(&[(EDGES, 0, 12), (ENDS, 2, 2)], at(6, 2, 0));
    }

    #[test]
    fn random_graphs_are_well_formed() {
        for seed in 0..3_000 {
            let mut rng = Rng::new(seed);
            let size = Size::any(&mut rng);
            let (graph, marks) = wellformed::marked(&mut rng, size);
            assert_eq!(refusal(&graph, &marks), FINE, "seed {seed}, {size:?}");
        }
    }
}
