use crate::exported::lend;
use crate::told::Told;
use crate::{Graph, Refusal};

/// The clauses of the graph for a SAT solver, each its length and then its literals, which are
/// edges: how many words were written. First comes the unit clause `[1, 1]`, so that row 0 is
/// false. With shortcuts, exclusive ors and if-then-elses take four clauses of three literals. 2 +
/// 16 · gates words are always enough; too few: [`Refusal::NoRoom`].
pub fn cnf(
    graph: &Graph,
    shortcuts: bool,
    clauses: &mut [u32],
    marks: &mut [u32],
) -> Result<usize, Refusal> {
    let (counts, mut told) = (graph.counts.words(), Told::new());
    // SAFETY: what is written is behind `&mut`, so it overlaps nothing
    unsafe {
        lend!(sulandiro_cnf(
            graph graph, read counts, word shortcuts, write clauses, write marks, write told
        ))
    };
    told.answer()?;
    Ok(told.result(0))
}
