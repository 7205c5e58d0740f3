//! Random graphs for the calls that go through a whole one: those of `wellformed.rs`, chains of
//! latches, and damaged ones.

use crate::damaged;
use crate::graph::{BADS, CONSTRAINTS, INPUTS, LATCHES, LEAF, Lent, NONE, OUTPUTS, ROWS};
use crate::rng::Rng;
use crate::wellformed::{self, Marked, Size};

/// Mostly well-formed.
pub fn marked(rng: &mut Rng) -> Marked {
    let graph = whole(rng);
    let marks = wellformed::buffer(rng, graph.counted(ROWS));
    let mut marked = (graph, marks);
    if rng.one_in(4) {
        damaged::damage(rng, &mut marked);
    }
    marked
}

/// Well-formed, of any size.
pub fn whole(rng: &mut Rng) -> Lent {
    if rng.one_in(2) {
        let size = Size::any(rng);
        wellformed::graph(rng, size)
    } else {
        let latches = number_of_latches(rng);
        chains(rng, latches)
    }
}

/// Mostly few, rarely thousands.
fn number_of_latches(rng: &mut Rng) -> usize {
    match rng.below(600) {
        0..2 => rng.between(8_000, 16_000),
        2..10 => rng.between(1_000, 5_000),
        10..40 => rng.between(20, 150),
        _ => rng.between(1, 7),
    }
}

/// A latch of a chain: its leaf, and the edge by which the latch before it reaches the leaf.
#[derive(Clone, Copy)]
struct Link {
    leaf: u32,
    edge: u32,
}

/// Latches of which each has the next one as its next, directly or through a gate: up through the
/// rows, down or in any order. Inputs and orphans stand between them. A chain ends at a constant,
/// at itself, at its begin or anywhere. Some gates are reached by inits alone.
pub fn chains(rng: &mut Rng, latches: usize) -> Lent {
    let mut graph = Lent::new();
    let links = links(rng, &mut graph, latches);
    let tops = tops(rng, &mut graph);
    push_latches(rng, &mut graph, &links, &tops);
    lists(rng, &mut graph, &links);
    graph.count_all();
    wellformed::spare_room(rng, &mut graph);
    graph
}

pub fn push_row(graph: &mut Lent, row: [u32; 2]) -> u32 {
    let id = graph.room(ROWS) as u32;
    graph.words[ROWS].extend(row);
    id
}

/// Any edge of a row, complemented or not.
pub fn edge_of(rng: &mut Rng, id: u32) -> u32 {
    2 * id + rng.below(2) as u32
}

pub fn any_edge(rng: &mut Rng, graph: &Lent) -> u32 {
    wellformed::edge(rng, graph.room(ROWS))
}

/// The leaves and the gates of the chain, in the order of the chain. At times each gate stands on
/// the one before it, so that the cones are deep.
fn links(rng: &mut Rng, graph: &mut Lent, latches: usize) -> Vec<Link> {
    let gates = rng.below(3);
    let side = rng.below(5);
    let mut links: Vec<Link> = Vec::new();
    for _ in 0..latches {
        if rng.one_in(5) {
            let leaf = push_row(graph, LEAF);
            if rng.below(3) > 0 {
                graph.words[INPUTS].push(leaf);
            }
        }
        let leaf = push_row(graph, LEAF);
        let mut edge = edge_of(rng, leaf);
        if rng.below(2) < gates {
            let other = match (side, links.last()) {
                (0, Some(before)) => before.edge,
                _ => other_fanin(rng, graph, side, edge),
            };
            let mut gate = [edge, other];
            rng.shuffle(&mut gate);
            let gate = push_row(graph, gate);
            edge = edge_of(rng, gate);
        }
        links.push(Link { leaf, edge });
    }
    match rng.below(3) {
        0 => {}
        1 => links.reverse(),
        _ => rng.shuffle(&mut links),
    }
    links
}

/// True, which hands the value of the latch on; the same edge; an input; or any.
fn other_fanin(rng: &mut Rng, graph: &Lent, side: usize, edge: u32) -> u32 {
    match (side, graph.words[INPUTS].last().copied()) {
        (1, _) => 1,
        (2, _) => edge,
        (3, Some(input)) => edge_of(rng, input),
        _ => any_edge(rng, graph),
    }
}

/// Gates above the chain.
fn tops(rng: &mut Rng, graph: &mut Lent) -> Vec<u32> {
    let count = rng.below(4);
    let mut top = || {
        let gate = [any_edge(rng, graph), any_edge(rng, graph)];
        push_row(graph, gate)
    };
    (0..count).map(|_| top()).collect()
}

fn push_latches(rng: &mut Rng, graph: &mut Lent, links: &[Link], tops: &[u32]) {
    let breaks = rng.pick(&[3, 10, usize::MAX, usize::MAX]);
    let mut latches: Vec<[u32; 3]> = Vec::new();
    for (at, link) in links.iter().enumerate() {
        let next = match links.get(at + 1) {
            Some(next) if !rng.one_in(breaks) => next.edge,
            _ => end(rng, graph, links[0], *link),
        };
        latches.push([link.leaf, next, init(rng, graph, tops)]);
    }
    if rng.one_in(2) {
        rng.shuffle(&mut latches);
    }
    graph.words[LATCHES] = latches.as_flattened().to_vec();
}

/// The next of the last latch of a chain.
fn end(rng: &mut Rng, graph: &Lent, first: Link, last: Link) -> u32 {
    match rng.below(5) {
        0 => rng.below(2) as u32,
        1 => edge_of(rng, last.leaf),
        2 => last.edge,
        3 => first.edge,
        _ => any_edge(rng, graph),
    }
}

fn init(rng: &mut Rng, graph: &Lent, tops: &[u32]) -> u32 {
    match rng.below(6) {
        0 => NONE,
        1 => rng.below(2) as u32,
        2 => any_edge(rng, graph),
        _ if tops.is_empty() => NONE,
        _ => {
            let top = rng.pick(tops);
            edge_of(rng, top)
        }
    }
}

/// The begin of the chain is an output; little else.
fn lists(rng: &mut Rng, graph: &mut Lent, links: &[Link]) {
    graph.words[OUTPUTS] = vec![edge_of(rng, links[0].leaf)];
    for list in [CONSTRAINTS, BADS] {
        graph.words[list] = (0..rng.below(2)).map(|_| any_edge(rng, graph)).collect();
    }
    for _ in 0..rng.pick(&[0, 0, 1]) {
        wellformed::push_set(rng, graph);
    }
}

#[cfg(test)]
mod tests {
    use super::*;
    use crate::refuse::refusal;

    #[test]
    fn chains_are_well_formed() {
        for seed in 0..2_000 {
            let mut rng = Rng::new(seed);
            let latches = number_of_latches(&mut rng);
            let graph = chains(&mut rng, latches);
            let marks = vec![7; graph.counted(ROWS)];
            assert_eq!(refusal(&graph, &marks), None, "seed {seed}");
            assert_eq!(graph.counted(LATCHES), latches);
        }
    }
}
