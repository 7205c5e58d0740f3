use crate::exported::lend;
use crate::told::Told;
use crate::{Graph, Refusal};

/// Flags, 0 or 1 a used row: the rows of the edges `roots` and all fanins below. Latches are not
/// crossed; row 0 is flagged only when reached. A root that is not used: [`Refusal::BadArgument`].
pub fn fanin_logic_cone(
    graph: &Graph,
    roots: &[u32],
    flags: &mut [u32],
    marks: &mut [u32],
) -> Result<(), Refusal> {
    let (counts, mut told) = (graph.counts.words(), Told::new());
    // SAFETY: what is written is behind `&mut`, so it overlaps nothing
    unsafe {
        lend!(sulandiro_fanin_logic_cone(
            graph graph, read counts, read roots, write flags, write marks, write told
        ))
    };
    told.answer()
}

/// The same from row ids, with row 0 always, and across latches: from a latch's input to its next,
/// not to its init. An id that is not used: [`Refusal::BadArgument`]. `stack` is a second slice of
/// marks.
pub fn coi(
    graph: &Graph,
    ids: &[u32],
    flags: &mut [u32],
    marks: &mut [u32],
    stack: &mut [u32],
) -> Result<(), Refusal> {
    let (counts, mut told) = (graph.counts.words(), Told::new());
    // SAFETY: what is written is behind `&mut`, so it overlaps nothing
    unsafe {
        lend!(sulandiro_coi(
            graph graph, read counts, read ids, write flags, write marks, write stack, write told
        ))
    };
    told.answer()
}
