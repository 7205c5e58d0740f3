//! And-inverter graphs whose handling is proved: a safe way to the library's archives, which are
//! for x86-64.
//!
//! All memory is the caller's: each call is lent slices. What the words mean, and every number,
//! stands at the top of `include/sulandiro.h`, and each function here is the one of that name
//! there. A call is done, or is refused with a [`Refusal`]; then nothing that it was lent has
//! changed, but for work marks, and for the copy and finished frames of [`unroll_to`].
//!
//! The proofs assume that a slice which is written overlaps no other: `&mut` gives just that.

pub mod build;
pub mod edge;
pub mod rows;
pub mod ternary;

mod cnf;
mod cones;
mod counts;
mod exported;
mod graph;
mod property;
mod rebuild;
mod refusal;
mod told;
mod unroll;

pub use cnf::cnf;
pub use cones::{coi, fanin_logic_cone};
pub use counts::Counts;
pub use graph::{check, Graph, Room};
pub use property::{aig_move, compress_property, gate_init_to_constraint};
pub use rebuild::{coi_refine, merge, reencode};
pub use refusal::Refusal;
pub use unroll::{unroll, unroll_to, Stopped};

/// The init of a latch that has none; also the first word of a leaf.
pub const NONE: u32 = u32::MAX;
/// The first word of row 0; its second is 0.
pub const FALSE_ROW: u32 = u32::MAX - 1;
/// The most rows that may be lent.
pub const MAX_ROWS: usize = 1_048_576;
/// The most entries of a list that may be lent.
pub const MAX_ENTRIES: usize = 65_536;
/// The most frames of [`unroll_to`].
pub const MAX_FRAMES: usize = 4_096;
