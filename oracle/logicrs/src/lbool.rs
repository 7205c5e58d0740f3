use std::ops::{BitAnd, Not};

/// A value of three; unknown where nothing else is said.
#[derive(Debug, Clone, Copy, PartialEq, Eq, Default)]
pub struct Lbool(Option<bool>);

impl Lbool {
    pub const FALSE: Lbool = Lbool(Some(false));
    pub const TRUE: Lbool = Lbool(Some(true));
    pub const UNKNOWN: Lbool = Lbool(None);

    pub fn not_if(self, flip: bool) -> Self {
        if flip { !self } else { self }
    }
}

impl Not for Lbool {
    type Output = Lbool;

    /// "NOT swaps 0 and 1."
    fn not(self) -> Lbool {
        Lbool(self.0.map(|value| !value))
    }
}

impl BitAnd for Lbool {
    type Output = Lbool;

    /// "The nine answers of the three-valued AND": 0 0 0, 0 1 2, 0 2 2.
    fn bitand(self, other: Lbool) -> Lbool {
        match (self.0, other.0) {
            (Some(false), _) | (_, Some(false)) => Lbool::FALSE,
            (Some(true), Some(true)) => Lbool::TRUE,
            _ => Lbool::UNKNOWN,
        }
    }
}
