//! Random graphs for the clauses: exclusive ors, if-then-elses and what is nearly one of them, over
//! leaves, over constants and over one another.

use crate::damaged;
use crate::graph::{BADS, CONSTRAINTS, FAIRNESS, INPUTS, LATCHES, LEAF, Lent, NONE, OUTPUTS, ROWS};
use crate::rng::Rng;
use crate::shapes::{any_edge, edge_of, push_row};
use crate::wellformed::{self, Marked, push_set};

/// Mostly well-formed.
pub fn marked(rng: &mut Rng) -> Marked {
    let graph = whole(rng);
    let marks = wellformed::buffer(rng, graph.counted(ROWS));
    let mut marked = (graph, marks);
    if rng.one_in(5) {
        damaged::damage(rng, &mut marked);
    }
    marked
}

/// Well-formed, of any size.
pub fn whole(rng: &mut Rng) -> Lent {
    let patterns = number_of_patterns(rng);
    graph(rng, patterns)
}

/// Mostly few, rarely a thousand.
fn number_of_patterns(rng: &mut Rng) -> usize {
    match rng.below(800) {
        0..6 => rng.between(500, 1_400),
        6..30 => rng.between(20, 120),
        30..60 => 0,
        _ => rng.between(1, 6),
    }
}

/// So many patterns, with room to spare.
pub fn graph(rng: &mut Rng, patterns: usize) -> Lent {
    let mut graph = Lent::new();
    let operands = Operands::any(rng);
    for _ in 0..rng.between(1, 5) {
        push_row(&mut graph, LEAF);
    }
    let mut tops = Vec::new();
    for _ in 0..patterns {
        match rng.below(8) {
            0 => _ = push_row(&mut graph, LEAF),
            1 => {
                let gate = [any_edge(rng, &graph), any_edge(rng, &graph)];
                push_row(&mut graph, gate);
            }
            _ => {}
        }
        let top = pattern(rng, &mut graph, operands, &tops);
        tops.push(top);
    }
    list_leaves(rng, &mut graph, &tops);
    list_roots(rng, &mut graph, &tops);
    graph.count_all();
    wellformed::spare_room(rng, &mut graph);
    graph
}

/// What the patterns stand on.
#[derive(Clone, Copy, PartialEq, Eq)]
enum Operands {
    /// The pattern before, so that they are deep.
    Before,
    /// The first rows: row 0 and leaves.
    First,
    Any,
}

impl Operands {
    fn any(rng: &mut Rng) -> Self {
        rng.pick(&[Self::Before, Self::First, Self::Any, Self::Any])
    }
}

fn operand(rng: &mut Rng, graph: &Lent, operands: Operands, tops: &[u32]) -> u32 {
    match (operands, tops.last()) {
        (Operands::Before, Some(&top)) if rng.one_in(2) => edge_of(rng, top),
        (Operands::First, _) => {
            let rows = graph.room(ROWS).min(5);
            rng.below(2 * rows) as u32
        }
        _ => any_edge(rng, graph),
    }
}

/// Of different rows if that is easy, mostly.
fn three_operands(rng: &mut Rng, graph: &Lent, operands: Operands, tops: &[u32]) -> [u32; 3] {
    let mut three = [0; 3];
    let tries = rng.pick(&[1, 6, 6]);
    for _ in 0..tries {
        three.fill_with(|| operand(rng, graph, operands, tops));
        let [a, b, c] = three.map(|edge| edge / 2);
        if a != b && b != c && c != a {
            break;
        }
    }
    three
}

/// Two gates and the gate of both; the row of the last. Rows may stand between them.
fn pattern(rng: &mut Rng, graph: &mut Lent, operands: Operands, tops: &[u32]) -> u32 {
    let [a, b, c] = three_operands(rng, graph, operands, tops);
    let [first, second] = two_gates(rng, a, b, c);
    let first = push_row(graph, first);
    between(rng, graph);
    let second = match rng.below(20) {
        // the same gate twice, or another gate or leaf
        0 => first,
        1 => any_edge(rng, graph) / 2,
        _ => push_row(graph, second),
    };
    between(rng, graph);
    let mut top = [2 * first + 1, 2 * second + 1];
    if rng.one_in(3) {
        top.reverse();
    }
    if rng.one_in(10) {
        // not complemented: one of them or both
        let plain = rng.pick(&[[1, 0], [0, 1], [1, 1]]);
        top = [top[0] ^ plain[0], top[1] ^ plain[1]];
    }
    push_row(graph, top)
}

fn between(rng: &mut Rng, graph: &mut Lent) {
    if rng.one_in(12) {
        let gate = [any_edge(rng, graph), any_edge(rng, graph)];
        push_row(graph, rng.pick(&[gate, LEAF]));
    }
}

/// Those of an exclusive or, of an if-then-else in its four pairings, or nearly so.
fn two_gates(rng: &mut Rng, a: u32, b: u32, c: u32) -> [[u32; 2]; 2] {
    let [not_a, not_b] = [a ^ 1, b ^ 1];
    let mut gates = match rng.below(16) {
        0..4 => return [[a, b], [not_a, not_b]],
        // the complements stand at the other places
        4 => return [[a, b], [not_b, not_a]],
        // one row twice in a gate
        5 => [[a, a], [not_a, not_a]],
        6 => [[a, not_a], [not_a, a]],
        7 => [[a, not_a], [not_a, c]],
        // the same row as then and else
        8 => [[a, b], [not_a, b]],
        // no complement
        9 => [[a, b], [a, c]],
        // a constant
        10 => [[rng.below(2) as u32, b], [not_a, c]],
        11 => {
            let constant = rng.below(2) as u32;
            rng.pick(&[
                [[constant, b], [constant ^ 1, c]],
                [[a, constant], [not_a, c]],
                [[a, constant], [not_a, constant ^ 1]],
            ])
        }
        _ => [[a, b], [not_a, c]],
    };
    for gate in &mut gates {
        if rng.one_in(2) {
            gate.reverse();
        }
    }
    gates
}

/// Inputs, latches with every kind of init, and orphans.
fn list_leaves(rng: &mut Rng, graph: &mut Lent, tops: &[u32]) {
    let rows = graph.room(ROWS);
    let latches = rng.below(4);
    for id in 1..rows as u32 {
        if graph.row(id as usize) != LEAF {
            continue;
        }
        match rng.below(6) {
            0 => {}
            share if share <= latches => {
                let next = root(rng, graph, tops);
                let init = match rng.below(5) {
                    0 => NONE,
                    1 => rng.below(2) as u32,
                    2 => edge_of(rng, id),
                    _ => root(rng, graph, tops),
                };
                graph.words[LATCHES].extend([id, next, init]);
            }
            _ => graph.words[INPUTS].push(id),
        }
    }
}

/// The last pattern, any pattern or any edge.
fn root(rng: &mut Rng, graph: &Lent, tops: &[u32]) -> u32 {
    match (rng.below(4), tops.last()) {
        (0, Some(&last)) => edge_of(rng, last),
        (1 | 2, Some(_)) => {
            let top = rng.pick(tops);
            edge_of(rng, top)
        }
        _ => any_edge(rng, graph),
    }
}

/// One list alone or some: what no root reaches has no clause.
fn list_roots(rng: &mut Rng, graph: &mut Lent, tops: &[u32]) {
    const LISTS: [usize; 4] = [CONSTRAINTS, BADS, OUTPUTS, FAIRNESS];
    let alone = rng.below(10);
    for (at, list) in LISTS.into_iter().enumerate() {
        let length = match alone {
            alone if alone == at => rng.between(1, 2),
            0..5 => 0,
            _ => rng.below(3),
        };
        graph.words[list] = (0..length).map(|_| root(rng, graph, tops)).collect();
    }
    let sets = match alone {
        4 => rng.between(1, 2),
        0..4 => 0,
        _ => rng.below(2),
    };
    for _ in 0..sets {
        push_set(rng, graph);
    }
}

#[cfg(test)]
mod tests {
    use super::*;
    use crate::refuse::refusal;

    #[test]
    fn patterns_are_well_formed() {
        for seed in 0..2_000 {
            let mut rng = Rng::new(seed);
            let patterns = number_of_patterns(&mut rng);
            let graph = graph(&mut rng, patterns);
            let marks = vec![7; graph.counted(ROWS)];
            assert_eq!(refusal(&graph, &marks), None, "seed {seed}");
        }
    }
}
