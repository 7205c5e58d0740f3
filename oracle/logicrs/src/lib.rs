//! Stand-in written from document 01, only what the four files use. It is not the crate of that
//! name.

mod cnf;
mod lbool;
mod lit;

pub use cnf::{DagCnf, LitVvec};
pub use lbool::Lbool;
pub use lit::{Lit, Var, VarVMap};
