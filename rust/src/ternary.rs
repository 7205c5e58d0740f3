//! Three-valued simulation. A code is a byte: [`FALSE`], [`TRUE`] or [`UNKNOWN`].

use crate::exported::lend;
use crate::told::Told;
use crate::{Graph, Refusal};

pub const FALSE: u8 = 0;
pub const TRUE: u8 = 1;
pub const UNKNOWN: u8 = 2;

/// The code of every used row, in `values`. `input` has one code an input, `state` one a latch; a
/// leaf in no list is unknown. Other lengths, or a byte that is no code: [`Refusal::BadArgument`].
pub fn ternary_simulate(
    graph: &Graph,
    input: &[u8],
    state: &[u8],
    values: &mut [u8],
    marks: &mut [u32],
) -> Result<(), Refusal> {
    let (counts, mut told) = (graph.counts.words(), Told::new());
    // SAFETY: what is written is behind `&mut`, so it overlaps nothing
    unsafe {
        lend!(sulandiro_ternary_simulate(
            graph graph, read counts, read input, read state, write values, write marks,
            write told
        ))
    };
    told.answer()
}

/// The same, then each latch's state becomes the code of its next.
pub fn simulate(
    graph: &Graph,
    input: &[u8],
    state: &mut [u8],
    values: &mut [u8],
    marks: &mut [u32],
) -> Result<(), Refusal> {
    let (counts, mut told) = (graph.counts.words(), Told::new());
    // SAFETY: what is written is behind `&mut`, so it overlaps nothing
    unsafe {
        lend!(sulandiro_simulate(
            graph graph, read counts, read input, write state, write values, write marks,
            write told
        ))
    };
    told.answer()
}

/// The code of an edge, by the values of a run over `used` rows. An edge that is not used, or a
/// byte that is no code: [`Refusal::BadArgument`].
pub fn value(values: &[u8], used: usize, e: u32) -> Result<u8, Refusal> {
    let mut told = Told::new();
    // SAFETY: `values` is lent for reading, and `told` is a slice of its own
    unsafe { lend!(sulandiro_value(read values, word used, word e, write told)) };
    told.answer()?;
    Ok(told.result(0) as u8)
}
