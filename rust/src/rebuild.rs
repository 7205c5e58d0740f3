use crate::exported::lend;
use crate::told::Told;
use crate::{Counts, Graph, Refusal, Room};

/// `other` behind the target: its ids other than 0 move by the target's used rows − 1, in rows,
/// latches (init too) and every list. Marks: the larger number of used rows.
pub fn merge(
    target: &mut Room,
    counts: &mut Counts,
    other: &Graph,
    marks: &mut [u32],
) -> Result<(), Refusal> {
    let (first, second, mut told) = (counts.words(), other.counts.words(), Told::new());
    // SAFETY: what is written is behind `&mut`, so it overlaps nothing
    unsafe {
        lend!(sulandiro_merge(
            room target, read first, graph other, read second, write marks, write told
        ))
    };
    told.count(counts)
}

/// The graph numbered anew into `output`: row 0, inputs, latches, then gates in row order; the
/// counts of the result. A leaf in no list: [`Refusal::BadArgument`].
pub fn reencode(graph: &Graph, output: &mut Room, marks: &mut [u32]) -> Result<Counts, Refusal> {
    let (counts, mut told) = (graph.counts.words(), Told::new());
    // SAFETY: what is written is behind `&mut`, so it overlaps nothing
    unsafe {
        lend!(sulandiro_reencode(graph graph, read counts, room output, write marks, write told))
    };
    told.answer()?;
    Ok(told.counts())
}

/// The rows that the root lists, every latch input and every init that is no constant need, in
/// their order, into `output`; the counts of the result. `old[i]` becomes the row that new row i
/// was.
pub fn coi_refine(
    graph: &Graph,
    output: &mut Room,
    old: &mut [u32],
    marks: &mut [u32],
) -> Result<Counts, Refusal> {
    let (counts, mut told) = (graph.counts.words(), Told::new());
    // SAFETY: what is written is behind `&mut`, so it overlaps nothing
    unsafe {
        lend!(sulandiro_coi_refine(
            graph graph, read counts, room output, write old, write marks, write told
        ))
    };
    told.answer()?;
    Ok(told.counts())
}
