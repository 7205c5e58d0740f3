//! Constructors. They look at the counts and at the edges or ids given, and don't scan rows. New
//! rows follow the used ones. Done, the counts are raised in place; refused, they stay. An edge or
//! id that is not used: [`Refusal::BadArgument`]; a row or an entry that does not fit:
//! [`Refusal::NoRoom`].

use crate::exported::lend;
use crate::told::Told;
use crate::{Counts, Refusal};

/// The counts in place, and the edge or id that was made.
fn built(told: &Told, counts: &mut Counts) -> Result<u32, Refusal> {
    told.count(counts)?;
    Ok(told.made() as u32)
}

/// Row 0 alone.
pub fn new(rows: &mut [u32]) -> Result<Counts, Refusal> {
    let mut told = Told::new();
    // SAFETY: both slices are lent for writing, and `&mut` keeps them apart
    unsafe { lend!(sulandiro_new(write rows, write told)) };
    told.answer()?;
    Ok(told.counts())
}

/// A leaf in no list: its id.
pub fn new_leaf_node(rows: &mut [u32], counts: &mut Counts) -> Result<u32, Refusal> {
    let (given, mut told) = (counts.words(), Told::new());
    // SAFETY: what is written is behind `&mut`, so it overlaps nothing
    unsafe { lend!(sulandiro_new_leaf_node(write rows, read given, write told)) };
    built(&told, counts)
}

/// A new leaf that is the next input: its id.
pub fn new_input(
    rows: &mut [u32],
    inputs: &mut [u32],
    counts: &mut Counts,
) -> Result<u32, Refusal> {
    let (given, mut told) = (counts.words(), Told::new());
    // SAFETY: what is written is behind `&mut`, so it overlaps nothing
    unsafe { lend!(sulandiro_new_input(write rows, write inputs, read given, write told)) };
    built(&told, counts)
}

/// A used row, listed as the next input. It is not looked at: one that is no leaf, or is listed
/// already, shows as [`Refusal::BadEntry`] later.
pub fn add_input(
    rows: &[u32],
    inputs: &mut [u32],
    counts: &mut Counts,
    input: u32,
) -> Result<u32, Refusal> {
    let (given, mut told) = (counts.words(), Told::new());
    // SAFETY: what is written is behind `&mut`, so it overlaps nothing
    unsafe {
        lend!(sulandiro_add_input(read rows, write inputs, read given, word input, write told))
    };
    built(&told, counts)
}

/// A new leaf that is the input of the next latch: its id. `next` and `init` go to rows used
/// before; `init` may be [`NONE`](crate::NONE).
pub fn new_latch(
    rows: &mut [u32],
    latches: &mut [u32],
    counts: &mut Counts,
    next: u32,
    init: u32,
) -> Result<u32, Refusal> {
    let (given, mut told) = (counts.words(), Told::new());
    // SAFETY: what is written is behind `&mut`, so it overlaps nothing
    unsafe {
        lend!(sulandiro_new_latch(
            write rows, write latches, read given, word next, word init, write told
        ))
    };
    built(&told, counts)
}

/// A used row, listed as the input of the next latch. It is not looked at, as with [`add_input`].
pub fn add_latch(
    rows: &[u32],
    latches: &mut [u32],
    counts: &mut Counts,
    input: u32,
    next: u32,
    init: u32,
) -> Result<u32, Refusal> {
    let (given, mut told) = (counts.words(), Told::new());
    // SAFETY: what is written is behind `&mut`, so it overlaps nothing
    unsafe {
        lend!(sulandiro_add_latch(
            read rows, write latches, read given, word input, word next, word init, write told
        ))
    };
    built(&told, counts)
}

macro_rules! node_of_two_edges {
    ($(#[$what:meta])* $name:ident, $exported:ident) => {
        $(#[$what])*
        pub fn $name(rows: &mut [u32], counts: &mut Counts, a: u32, b: u32) -> Result<u32,
        Refusal> {
            let (given, mut told) = (counts.words(), Told::new());
            // SAFETY: what is written is behind `&mut`, so it overlaps nothing
            unsafe { lend!($exported(write rows, read given, word a, word b, write told)) };
            built(&told, counts)
        }
    };
}

macro_rules! node_of_a_list {
    ($(#[$what:meta])* $name:ident, $exported:ident) => {
        $(#[$what])*
        pub fn $name(rows: &mut [u32], counts: &mut Counts, edges: &[u32]) -> Result<u32, Refusal> {
            let (given, mut told) = (counts.words(), Told::new());
            // SAFETY: what is written is behind `&mut`, so it overlaps nothing
            unsafe { lend!($exported(write rows, read given, read edges, write told)) };
            built(&told, counts)
        }
    };
}

node_of_two_edges! {
    /// a AND b, always a row: the smaller id first, the given order for equal ids.
    trivial_new_and_node, sulandiro_trivial_new_and_node
}
node_of_two_edges! {
    /// a AND b. No row, and no room needed, where it is a constant or one of the two.
    new_and_node, sulandiro_new_and_node
}
node_of_two_edges! {
    /// a OR b, always a row.
    trivial_new_or_node, sulandiro_trivial_new_or_node
}
node_of_two_edges! {
    /// a OR b, folded as [`new_and_node`].
    new_or_node, sulandiro_new_or_node
}
node_of_two_edges! {
    /// a implies b, folded.
    new_imply_node, sulandiro_new_imply_node
}
node_of_two_edges! {
    /// Are a and b equal? Up to three rows, folded; refused whole or done whole.
    new_eq_node, sulandiro_new_eq_node
}
node_of_a_list! {
    /// The AND of a list from the left, a row for each edge after the first; of no edge true.
    /// Refused whole or done whole.
    trivial_new_ands_node, sulandiro_trivial_new_ands_node
}
node_of_a_list! {
    /// The same, each step folded.
    new_ands_node, sulandiro_new_ands_node
}
node_of_a_list! {
    /// The OR of a list from the left, a row for each edge after the first; of no edge false.
    /// Refused whole or done whole.
    trivial_new_ors_node, sulandiro_trivial_new_ors_node
}
node_of_a_list! {
    /// The same, each step folded.
    new_ors_node, sulandiro_new_ors_node
}
