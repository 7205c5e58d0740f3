use crate::{Lit, Var};

/// The clauses of gates, in the order in which document 01 lists them.
pub struct LitVvec;

impl LitVvec {
    /// "Plain: (¬g a) (¬g b) (g ¬a ¬b)", for any number of operands.
    pub fn cnf_and(g: Lit, operands: &[Lit]) -> Vec<Vec<Lit>> {
        let mut clauses: Vec<_> = operands.iter().map(|&a| vec![!g, a]).collect();
        let all_false = operands.iter().map(|&a| !a);
        clauses.push(std::iter::once(g).chain(all_false).collect());
        clauses
    }

    /// "(¬g a b) (¬g ¬a ¬b) (g ¬a b) (g a ¬b)"
    pub fn cnf_xor(g: Lit, a: Lit, b: Lit) -> Vec<Vec<Lit>> {
        vec![
            vec![!g, a, b],
            vec![!g, !a, !b],
            vec![g, !a, b],
            vec![g, a, !b],
        ]
    }

    /// "(¬g ¬c t) (¬g c e) (g ¬c ¬t) (g c ¬e)"
    pub fn cnf_ite(g: Lit, c: Lit, t: Lit, e: Lit) -> Vec<Vec<Lit>> {
        vec![
            vec![!g, !c, t],
            vec![!g, c, e],
            vec![g, !c, !t],
            vec![g, c, !e],
        ]
    }
}

/// The clauses of each variable. Variable 0 is there from the start, as `src/cnf.rs` expects, and
/// has no clause: "`src/cnf.rs` doesn't add [the unit], and whether logicrs does is not in the
/// text given".
#[derive(Debug, Clone)]
pub struct DagCnf {
    clauses: Vec<Vec<Vec<Lit>>>,
}

impl DagCnf {
    #[allow(clippy::new_without_default)]
    pub fn new() -> Self {
        Self {
            clauses: vec![Vec::new()],
        }
    }

    pub fn new_var(&mut self) -> Var {
        self.clauses.push(Vec::new());
        Var::new(self.clauses.len() - 1)
    }

    pub fn add_rel(&mut self, var: Var, clauses: &[Vec<Lit>]) {
        self.clauses[usize::from(var)].extend_from_slice(clauses);
    }

    /// The clauses of a variable, in the order in which they were added.
    pub fn clauses(&self, var: Var) -> &[Vec<Lit>] {
        &self.clauses[usize::from(var)]
    }
}
