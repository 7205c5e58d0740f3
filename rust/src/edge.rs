//! Edges, one word each: 2·id, or 2·id + 1 if complemented; so 0 is false and 1 is true. They see
//! no graph.

use crate::exported::lend;
use crate::told::Told;
use crate::Refusal;

/// The edge to a row. An id above 2,147,483,647: [`Refusal::BadArgument`].
pub fn new(id: u32, complement: bool) -> Result<u32, Refusal> {
    let mut told = Told::new();
    // SAFETY: `told` is a slice of its own
    unsafe { lend!(sulandiro_edge_new(word id, word complement, write told)) };
    told.answer()?;
    Ok(told.result(0) as u32)
}

/// The row of an edge.
pub fn node_id(e: u32) -> u32 {
    // SAFETY: no slice is lent
    unsafe { lend!(sulandiro_edge_node_id(word e)) }
}

/// Is the edge complemented?
pub fn compl(e: u32) -> bool {
    // SAFETY: no slice is lent
    unsafe { lend!(sulandiro_edge_compl(word e)) }
}

/// The same row with the other sign.
pub fn not(e: u32) -> u32 {
    // SAFETY: no slice is lent
    unsafe { lend!(sulandiro_edge_not(word e)) }
}

/// The same edge, complemented once more where `flip` says so.
pub fn not_if(e: u32, flip: bool) -> u32 {
    // SAFETY: no slice is lent
    unsafe { lend!(sulandiro_edge_not_if(word e, word flip)) }
}

/// 0 for false, 1 for true.
pub fn constant(polarity: bool) -> u32 {
    // SAFETY: no slice is lent
    unsafe { lend!(sulandiro_edge_constant(word polarity)) }
}

/// Is it an edge to row 0?
pub fn is_const(e: u32) -> bool {
    // SAFETY: no slice is lent
    unsafe { lend!(sulandiro_edge_is_const(word e)) }
}

/// Is it that constant?
pub fn is_constant(e: u32, polarity: bool) -> bool {
    // SAFETY: no slice is lent
    unsafe { lend!(sulandiro_edge_is_constant(word e, word polarity)) }
}

/// Which constant it is, if any.
pub fn try_to_constant(e: u32) -> Option<bool> {
    // SAFETY: no slice is lent
    match unsafe { lend!(sulandiro_edge_try_to_constant(word e)) } {
        0 => Some(false),
        1 => Some(true),
        _ => None,
    }
}

/// The value of a constant. Another edge: [`Refusal::BadArgument`].
pub fn to_constant(e: u32) -> Result<bool, Refusal> {
    let mut told = Told::new();
    // SAFETY: `told` is a slice of its own
    unsafe { lend!(sulandiro_edge_to_constant(word e, write told)) };
    told.answer()?;
    Ok(told.result(0) == 1)
}

/// The edge to the row that the map has for its row, with its sign. A row outside the map, or
/// mapped above 2,147,483,647: [`Refusal::BadArgument`].
pub fn map(e: u32, map: &[u32]) -> Result<u32, Refusal> {
    let mut told = Told::new();
    // SAFETY: `map` is lent for reading, and `told` is a slice of its own
    unsafe { lend!(sulandiro_edge_map(word e, read map, write told)) };
    told.answer()?;
    Ok(told.result(0) as u32)
}
