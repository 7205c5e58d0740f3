//! Random well-formed graphs.

use crate::graph::{
    BADS, CONSTRAINTS, EDGES, ENDS, FAIRNESS, INPUTS, LATCHES, LEAF, Lent, NONE, OUTPUTS, ROWS,
    WIDTH,
};
use crate::rng::Rng;

/// The most entries of a list.
pub const FULL: usize = 65_536;

/// A graph with its marks.
pub type Marked = (Lent, Vec<u32>);

/// How large a graph is made.
#[derive(Debug, Clone, Copy, PartialEq, Eq)]
pub enum Size {
    /// So many rows; the lists are mostly short.
    Rows(usize),
    /// One list or two with 65,536 entries.
    FullLists,
}

impl Size {
    /// Mostly small, rarely large.
    pub fn any(rng: &mut Rng) -> Self {
        match rng.below(1200) {
            0 | 1 => Size::FullLists,
            2..5 => Size::Rows(rng.between(1_000, 20_000)),
            5..80 => Size::Rows(rng.between(60, 400)),
            80..200 => Size::Rows(1),
            200..600 => Size::Rows(rng.between(2, 8)),
            _ => Size::Rows(rng.between(2, 60)),
        }
    }
}

/// A word that may stand where nothing is read.
pub fn garbage(rng: &mut Rng) -> u32 {
    match rng.below(4) {
        0 => rng.below(3) as u32,
        1 => rng.below(200) as u32,
        2 => rng.pick(&[NONE, NONE - 1, 1 << 31]),
        _ => rng.word(),
    }
}

/// A graph with marks that are long enough.
pub fn marked(rng: &mut Rng, size: Size) -> Marked {
    let graph = graph(rng, size);
    let marks = buffer(rng, graph.counted(ROWS));
    (graph, marks)
}

/// Marks or flags that cover the used rows: garbage, and often longer than needed.
pub fn buffer(rng: &mut Rng, used: usize) -> Vec<u32> {
    let length = buffer_length(rng, used);
    (0..length).map(|_| garbage(rng)).collect()
}

pub fn buffer_length(rng: &mut Rng, used: usize) -> usize {
    used + rng.pick(&[0, 0, 1, 2, 7])
}

pub fn graph(rng: &mut Rng, size: Size) -> Lent {
    let mut graph = match size {
        Size::Rows(rows) => rows_and_lists(rng, rows),
        Size::FullLists => full_lists(rng),
    };
    graph.count_all();
    spare_room(rng, &mut graph);
    graph
}

/// The rows alone, with no room beyond them.
pub fn rows(rng: &mut Rng, count: usize) -> Lent {
    let mut graph = Lent::new();
    let gates = rng.between(1, 9);
    while graph.room(ROWS) < count {
        let i = graph.room(ROWS);
        if rng.below(10) >= gates {
            graph.words[ROWS].extend(LEAF);
        } else if rng.one_in(12) && i + 3 <= count {
            pattern(rng, &mut graph, i);
        } else {
            let gate = gate(rng, &graph, i);
            graph.words[ROWS].extend(gate);
        }
    }
    graph.count_all();
    graph
}

/// An edge to one of the first rows, with some weight on row 0 and on the last ones.
pub fn edge(rng: &mut Rng, rows: usize) -> u32 {
    let id = match rng.below(8) {
        0 => 0,
        1..4 => rows - 1 - rng.below(rows.min(4)),
        _ => rng.below(rows),
    };
    (2 * id + rng.below(2)) as u32
}

fn gate(rng: &mut Rng, graph: &Lent, i: usize) -> [u32; 2] {
    let (a, b) = (edge(rng, i), edge(rng, i));
    match rng.below(10) {
        // one row twice: (2,2), (3,3), (2,3), (3,2)
        0 => [a, a ^ rng.below(2) as u32],
        // the fanins of another row, in either order
        1 => match graph.row(rng.below(i)) {
            row if row[0] >= 2 * i as u32 => [a, b],
            [a, b] => rng.pick(&[[a, b], [b, a]]),
        },
        2 => rng.pick(&[[a, 0], [a, 1], [0, a], [1, a], [0, 1]]),
        _ => [a, b],
    }
}

/// Two gates and their NOR: an exclusive or, an if-then-else, or nearly so.
fn pattern(rng: &mut Rng, graph: &mut Lent, i: usize) {
    let (a, b, c) = (edge(rng, i), edge(rng, i), edge(rng, i));
    let mut first = [a, b];
    let mut second = rng.pick(&[[a ^ 1, b ^ 1], [a ^ 1, c]]);
    if rng.one_in(3) {
        first.reverse();
    }
    if rng.one_in(3) {
        second.reverse();
    }
    let complement = |row: usize| 2 * row as u32 + 1;
    let top = [complement(i), complement(i + 1)];
    graph.words[ROWS].extend([first, second, top].as_flattened());
}

fn rows_and_lists(rng: &mut Rng, count: usize) -> Lent {
    let mut graph = rows(rng, count);
    let leaves = leaves(rng, &graph);
    let (inputs, orphans) = (rng.below(4), rng.below(3));
    for leaf in leaves {
        match rng.below(6) {
            share if share < inputs => graph.words[INPUTS].push(leaf),
            share if share < inputs + orphans => {}
            _ => push_latch(rng, &mut graph, leaf),
        }
    }
    for list in [CONSTRAINTS, BADS, OUTPUTS, FAIRNESS] {
        let length = list_length(rng, count);
        graph.words[list] = (0..length).map(|_| edge(rng, count)).collect();
    }
    for _ in 0..list_length(rng, count) {
        push_set(rng, &mut graph);
    }
    graph
}

/// The leaves in row order or in any other.
fn leaves(rng: &mut Rng, graph: &Lent) -> Vec<u32> {
    let rows = 1..graph.room(ROWS);
    let is_leaf = |&i: &usize| graph.row(i) == LEAF;
    let mut leaves: Vec<u32> = rows.filter(is_leaf).map(|i| i as u32).collect();
    if rng.one_in(3) {
        rng.shuffle(&mut leaves);
    }
    leaves
}

/// Mostly short; of a large graph sometimes long.
fn list_length(rng: &mut Rng, rows: usize) -> usize {
    let most = if rng.one_in(8) { 3 + rows / 4 } else { 4 };
    rng.below(most)
}

fn push_latch(rng: &mut Rng, graph: &mut Lent, input: u32) {
    let rows = graph.room(ROWS);
    let init = match rng.below(5) {
        0 | 1 => NONE,
        2 => rng.below(2) as u32,
        _ => edge(rng, rows),
    };
    let next = edge(rng, rows);
    graph.words[LATCHES].extend([input, next, init]);
}

/// A justice set, empty at times.
pub fn push_set(rng: &mut Rng, graph: &mut Lent) {
    let rows = graph.room(ROWS);
    for _ in 0..rng.below(4) {
        let edge = edge(rng, rows);
        graph.words[EDGES].push(edge);
    }
    let end = graph.words[EDGES].len() as u32;
    graph.words[ENDS].push(end);
}

/// Lists at the limit; not all of them, for the program's room.
fn full_lists(rng: &mut Rng) -> Lent {
    match rng.below(4) {
        0 => full_inputs(),
        1 => full_latches(rng),
        2 => full_justice(rng),
        _ => full_edges(rng),
    }
}

fn full_inputs() -> Lent {
    let mut graph = Lent::new();
    graph.words[ROWS].extend(LEAF.repeat(FULL));
    graph.words[INPUTS].extend(1..=FULL as u32);
    graph
}

fn full_latches(rng: &mut Rng) -> Lent {
    let mut graph = Lent::new();
    graph.words[ROWS].extend(LEAF.repeat(FULL));
    for input in 1..=FULL as u32 {
        push_latch(rng, &mut graph, input);
    }
    graph
}

/// One edge a set, so that both lists are full.
fn full_justice(rng: &mut Rng) -> Lent {
    let mut graph = rows(rng, 50);
    graph.words[EDGES] = (0..FULL).map(|_| edge(rng, 50)).collect();
    graph.words[ENDS] = (1..=FULL as u32).collect();
    graph
}

/// One list or two.
fn full_edges(rng: &mut Rng) -> Lent {
    let mut graph = rows(rng, 50);
    for _ in 0..2 {
        let list = rng.pick(&[CONSTRAINTS, BADS, OUTPUTS, FAIRNESS]);
        graph.words[list] = (0..FULL).map(|_| edge(rng, 50)).collect();
    }
    graph
}

/// Lends more than the counts say: garbage entries, and a last entry that is not whole. A list
/// at the limit gets no entry more.
pub fn spare_room(rng: &mut Rng, graph: &mut Lent) {
    for (slice, width) in WIDTH.into_iter().enumerate() {
        let (entries, part) = match (graph.room(slice) < 60_000, slice) {
            (false, LATCHES) => (0, rng.below(3)),
            (false, _) => (0, 0),
            (true, ROWS) => (rng.pick(&[0, 0, 1, 3]), rng.below(2)),
            (true, LATCHES) => (rng.pick(&[0, 0, 1, 3]), rng.below(3)),
            (true, _) => (rng.pick(&[0, 0, 0, 1, 4]), 0),
        };
        let spare = entries * width + part;
        graph.words[slice].extend((0..spare).map(|_| garbage(rng)));
    }
}
