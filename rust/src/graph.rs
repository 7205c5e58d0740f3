use crate::exported::lend;
use crate::told::Told;
use crate::{Counts, Refusal};

/// A graph that is read: nine slices, of which the counts say how much is in use.
#[derive(Debug, Clone, Copy, Default)]
pub struct Graph<'a> {
    /// Two words a row.
    pub rows: &'a [u32],
    /// Ids of leaves.
    pub inputs: &'a [u32],
    /// Three words a latch: input, next, init or [`NONE`](crate::NONE).
    pub latches: &'a [u32],
    pub constraints: &'a [u32],
    pub bads: &'a [u32],
    pub outputs: &'a [u32],
    /// Where each justice set ends in `edges`.
    pub ends: &'a [u32],
    /// The edges of all justice sets.
    pub edges: &'a [u32],
    pub fairness: &'a [u32],
    pub counts: Counts,
}

/// The slices of a graph that is written: one that changes in place, whose counts come with it, or
/// room alone for one that a call makes.
#[derive(Debug, Default)]
pub struct Room<'a> {
    pub rows: &'a mut [u32],
    pub inputs: &'a mut [u32],
    pub latches: &'a mut [u32],
    pub constraints: &'a mut [u32],
    pub bads: &'a mut [u32],
    pub outputs: &'a mut [u32],
    pub ends: &'a mut [u32],
    pub edges: &'a mut [u32],
    pub fairness: &'a mut [u32],
}

impl Room<'_> {
    /// The graph that stands in the room, to be read.
    pub fn graph(&self, counts: Counts) -> Graph<'_> {
        Graph {
            rows: self.rows,
            inputs: self.inputs,
            latches: self.latches,
            constraints: self.constraints,
            bads: self.bads,
            outputs: self.outputs,
            ends: self.ends,
            edges: self.edges,
            fairness: self.fairness,
            counts,
        }
    }
}

/// Is the graph well-formed, and are the sizes right? If not, the refusal names the first fault.
/// `marks` are work words, one a used row.
pub fn check(graph: &Graph, marks: &mut [u32]) -> Result<(), Refusal> {
    let (counts, mut told) = (graph.counts.words(), Told::new());
    // SAFETY: what is written is behind `&mut`, so it overlaps nothing
    unsafe { lend!(sulandiro_check(graph graph, read counts, write marks, write told)) };
    told.answer()
}
