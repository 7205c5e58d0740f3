use std::collections::HashMap;
use std::ops::Not;

/// A variable is the id of a row.
#[derive(Debug, Clone, Copy, PartialEq, Eq, Hash, PartialOrd, Ord)]
pub struct Var(usize);

impl Var {
    pub fn new(id: usize) -> Self {
        Self(id)
    }

    pub fn lit(self) -> Lit {
        Lit::new(self, true)
    }
}

impl From<usize> for Var {
    fn from(id: usize) -> Self {
        Self(id)
    }
}

impl From<Var> for usize {
    fn from(var: Var) -> Self {
        var.0
    }
}

/// "Literal codes are edge codes": a literal of polarity false is the complemented edge.
#[derive(Debug, Clone, Copy, PartialEq, Eq, Hash, PartialOrd, Ord)]
pub struct Lit {
    var: Var,
    polarity: bool,
}

impl Lit {
    pub fn new(var: Var, polarity: bool) -> Self {
        Self { var, polarity }
    }

    pub fn var(&self) -> Var {
        self.var
    }

    pub fn polarity(&self) -> bool {
        self.polarity
    }
}

impl Not for Lit {
    type Output = Lit;

    fn not(self) -> Lit {
        Lit::new(self.var, !self.polarity)
    }
}

/// A map from variables to variables.
#[derive(Debug, Clone, Default)]
pub struct VarVMap(HashMap<Var, Var>);

impl VarVMap {
    pub fn new() -> Self {
        Self::default()
    }

    pub fn insert(&mut self, from: Var, to: Var) {
        self.0.insert(from, to);
    }

    pub fn get(&self, from: Var) -> Option<Var> {
        self.0.get(&from).copied()
    }
}
