use std::fmt;

/// Why a call was refused: document 01's numbers 1 to 5, in its order.
#[derive(Debug, Clone, Copy, PartialEq, Eq)]
pub enum Refusal {
    /// No row used, more used rows than lent, a limit passed, a count above its room, or marks,
    /// flags or values shorter than the used rows.
    BadSizes,
    /// The smallest used row that is none of the three kinds at its place.
    BadRow(usize),
    /// The first list entry that breaks well-formedness. Lists are numbered 1 to 7: inputs,
    /// latches, constraints, bads, outputs, justice, fairness. Of an edge in a justice set `index`
    /// is the set's and `second` is 1 + its position in the set; else `second` is 0.
    BadEntry {
        list: u8,
        index: usize,
        second: usize,
    },
    /// An argument is wrong for the call.
    BadArgument,
    /// Rows, list entries or clause words still free are fewer than the call needs.
    NoRoom,
}

impl Refusal {
    /// Document 01's number.
    pub fn number(self) -> u8 {
        match self {
            Refusal::BadSizes => 1,
            Refusal::BadRow(_) => 2,
            Refusal::BadEntry { .. } => 3,
            Refusal::BadArgument => 4,
            Refusal::NoRoom => 5,
        }
    }
}

impl fmt::Display for Refusal {
    fn fmt(&self, f: &mut fmt::Formatter) -> fmt::Result {
        match self {
            Refusal::BadSizes => write!(f, "sizes are wrong"),
            Refusal::BadRow(row) => write!(f, "row {row} is no row"),
            Refusal::BadEntry {
                list,
                index,
                second: 0,
            } => write!(f, "entry {index} of list {list} is bad"),
            Refusal::BadEntry { index, second, .. } => {
                write!(f, "edge {} of justice set {index} is bad", second - 1)
            }
            Refusal::BadArgument => write!(f, "an argument is wrong"),
            Refusal::NoRoom => write!(f, "there is too little room"),
        }
    }
}

impl std::error::Error for Refusal {}
