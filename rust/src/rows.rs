//! One row of a table, of which `used` rows are in use. The others are not looked at. An id that is
//! not used: [`Refusal::BadArgument`].

use crate::exported::lend;
use crate::told::Told;
use crate::Refusal;

/// Is the row a gate?
pub fn is_and(rows: &[u32], used: usize, id: u32) -> Result<bool, Refusal> {
    let mut told = Told::new();
    // SAFETY: `rows` is lent for reading, and `told` is a slice of its own
    unsafe { lend!(sulandiro_is_and(read rows, word used, word id, write told)) };
    told.answer()?;
    Ok(told.result(0) == 1)
}

/// Is the row a leaf?
pub fn is_leaf(rows: &[u32], used: usize, id: u32) -> Result<bool, Refusal> {
    let mut told = Told::new();
    // SAFETY: `rows` is lent for reading, and `told` is a slice of its own
    unsafe { lend!(sulandiro_is_leaf(read rows, word used, word id, write told)) };
    told.answer()?;
    Ok(told.result(0) == 1)
}

/// Both fanins of a gate. Another row: [`Refusal::BadArgument`].
pub fn fanin(rows: &[u32], used: usize, id: u32) -> Result<(u32, u32), Refusal> {
    let mut told = Told::new();
    // SAFETY: `rows` is lent for reading, and `told` is a slice of its own
    unsafe { lend!(sulandiro_fanin(read rows, word used, word id, write told)) };
    told.answer()?;
    Ok((told.result(0) as u32, told.result(1) as u32))
}

/// The first fanin of a gate. Another row: [`Refusal::BadArgument`].
pub fn fanin0(rows: &[u32], used: usize, id: u32) -> Result<u32, Refusal> {
    let mut told = Told::new();
    // SAFETY: `rows` is lent for reading, and `told` is a slice of its own
    unsafe { lend!(sulandiro_fanin0(read rows, word used, word id, write told)) };
    told.answer()?;
    Ok(told.result(0) as u32)
}

/// The second fanin of a gate. Another row: [`Refusal::BadArgument`].
pub fn fanin1(rows: &[u32], used: usize, id: u32) -> Result<u32, Refusal> {
    let mut told = Told::new();
    // SAFETY: `rows` is lent for reading, and `told` is a slice of its own
    unsafe { lend!(sulandiro_fanin1(read rows, word used, word id, write told)) };
    told.answer()?;
    Ok(told.result(0) as u32)
}
