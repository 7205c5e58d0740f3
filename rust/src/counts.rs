/// How much of each of a graph's lists is in use; what is lent beyond is room.
#[derive(Debug, Clone, Copy, PartialEq, Eq, Default)]
pub struct Counts {
    pub rows: usize,
    pub inputs: usize,
    pub latches: usize,
    pub constraints: usize,
    pub bads: usize,
    pub outputs: usize,
    /// Justice sets.
    pub sets: usize,
    /// Justice edges, of all sets together.
    pub edges: usize,
    pub fairness: usize,
}

impl Counts {
    pub(crate) fn words(&self) -> [u64; 9] {
        [
            self.rows,
            self.inputs,
            self.latches,
            self.constraints,
            self.bads,
            self.outputs,
            self.sets,
            self.edges,
            self.fairness,
        ]
        .map(|count| count as u64)
    }

    pub(crate) fn of_words(words: [u64; 9]) -> Self {
        let [rows, inputs, latches, constraints, bads, outputs, sets, edges, fairness] =
            words.map(|word| word as usize);
        Self {
            rows,
            inputs,
            latches,
            constraints,
            bads,
            outputs,
            sets,
            edges,
            fairness,
        }
    }
}
