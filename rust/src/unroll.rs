use crate::exported::lend;
use crate::told::Told;
use crate::{Counts, Graph, Refusal, Room};
use std::fmt;

/// A frame of `from` behind the target: latch inputs stand for the target's nexts, other leaves get
/// a new input, gates are built anew with folding; then nexts are the frame's, and each root list
/// grows by its entries. [`Refusal::BadArgument`] where the target's first rows are not `from`'s
/// used rows, or the latch inputs differ. Marks: the larger number of used rows.
pub fn unroll(
    target: &mut Room,
    counts: &mut Counts,
    from: &Graph,
    marks: &mut [u32],
) -> Result<(), Refusal> {
    let (first, second, mut told) = (counts.words(), from.counts.words(), Told::new());
    // SAFETY: what is written is behind `&mut`, so it overlaps nothing
    unsafe {
        lend!(sulandiro_unroll(
            room target, read first, graph from, read second, write marks, write told
        ))
    };
    told.count(counts)
}

/// A refused [`unroll_to`]. At [`Refusal::NoRoom`] the copy and the finished frames stand, and the
/// counts are theirs; all are 0 where the copy itself does not fit. Else nothing is written, and
/// the counts are those given.
#[derive(Debug, Clone, Copy, PartialEq, Eq)]
pub struct Stopped {
    pub refusal: Refusal,
    pub finished: usize,
    pub counts: Counts,
}

impl fmt::Display for Stopped {
    fn fmt(&self, f: &mut fmt::Formatter) -> fmt::Result {
        write!(
            f,
            "{}, with {} frames finished",
            self.refusal, self.finished
        )
    }
}

impl std::error::Error for Stopped {}

/// So many frames on a copy; the counts of the copy. Above 4,096 frames: [`Refusal::BadArgument`].
pub fn unroll_to(
    graph: &Graph,
    frames: usize,
    copy: &mut Room,
    marks: &mut [u32],
) -> Result<Counts, Stopped> {
    let (counts, mut told) = (graph.counts.words(), Told::new());
    // SAFETY: what is written is behind `&mut`, so it overlaps nothing
    unsafe {
        lend!(sulandiro_unroll_to(
            graph graph, read counts, word frames, room copy, write marks, write told
        ))
    };
    let (finished, counts) = (told.made(), told.counts());
    let stopped = |refusal| Stopped {
        refusal,
        finished,
        counts,
    };
    told.answer().map_err(stopped)?;
    Ok(counts)
}
