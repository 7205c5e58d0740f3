use crate::exported::lend;
use crate::told::Told;
use crate::{Counts, Graph, Refusal, Room};

/// The graph without constraints, in `output`: a latch more, init true, whose next is the AND of it
/// and all constraints; the first bad and the first output become their AND with that next. The
/// counts of the result.
pub fn aig_move(graph: &Graph, output: &mut Room, marks: &mut [u32]) -> Result<Counts, Refusal> {
    let (counts, mut told) = (graph.counts.words(), Told::new());
    // SAFETY: what is written is behind `&mut`, so it overlaps nothing
    unsafe {
        lend!(sulandiro_aig_move(graph graph, read counts, room output, write marks, write told))
    };
    told.answer()?;
    Ok(told.counts())
}

/// One bad, the OR of all, false if there were none; rows and bads are written. The old bads go to
/// the front of `old`: how many they are.
pub fn compress_property(
    graph: &mut Room,
    counts: &mut Counts,
    old: &mut [u32],
    marks: &mut [u32],
) -> Result<usize, Refusal> {
    let (given, mut told) = (counts.words(), Told::new());
    let bads = counts.bads;
    // SAFETY: what is written is behind `&mut`, so it overlaps nothing
    unsafe {
        lend!(sulandiro_compress_property(
            write graph.rows, read graph.inputs, read graph.latches, read graph.constraints,
            write graph.bads, read graph.outputs, read graph.ends,
            read graph.edges, read graph.fairness, read given, write old, write marks, write told
        ))
    };
    told.count(counts)?;
    Ok(bads)
}

/// Each latch whose init is no constant loses it. One new latch is true at the start alone, and for
/// each such latch a constraint says that it then equals its init. Rows, latches and constraints
/// are written.
pub fn gate_init_to_constraint(
    graph: &mut Room,
    counts: &mut Counts,
    marks: &mut [u32],
) -> Result<(), Refusal> {
    let (given, mut told) = (counts.words(), Told::new());
    // SAFETY: what is written is behind `&mut`, so it overlaps nothing
    unsafe {
        lend!(sulandiro_gate_init_to_constraint(
            write graph.rows, read graph.inputs, write graph.latches, write graph.constraints,
            read graph.bads, read graph.outputs, read graph.ends,
            read graph.edges, read graph.fairness, read given, write marks, write told
        ))
    };
    told.count(counts)
}
