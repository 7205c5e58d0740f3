//! Graphs as they are lent (words and counts) and as the crate has them.

use crate::case::{Case, Slot};
use aig::{Aig, AigEdge, AigLatch};

/// The nine slices of a graph, in the order of FORMAT.md.
pub const ROWS: usize = 0;
pub const INPUTS: usize = 1;
pub const LATCHES: usize = 2;
pub const CONSTRAINTS: usize = 3;
pub const BADS: usize = 4;
pub const OUTPUTS: usize = 5;
pub const ENDS: usize = 6;
pub const EDGES: usize = 7;
pub const FAIRNESS: usize = 8;
pub const SLICES: usize = 9;

/// The slices that are plain lists of edges.
pub const EDGE_LISTS: [usize; 5] = [CONSTRAINTS, BADS, OUTPUTS, EDGES, FAIRNESS];

/// Words of one entry: "A row is two words", a latch is "input [..], next [..], init".
pub const WIDTH: [usize; SLICES] = [2, 1, 3, 1, 1, 1, 1, 1, 1];

/// "init (an edge, or 4294967295 for none)"; also the first word of a leaf.
pub const NONE: u32 = u32::MAX;
/// "Row 0 is (4294967294, 0)."
pub const ROW_0: [u32; 2] = [4_294_967_294, 0];
/// "A leaf, at any later row, is (4294967295, 0)."
pub const LEAF: [u32; 2] = [NONE, 0];

/// What a row is.
#[derive(Debug, Clone, Copy, PartialEq, Eq)]
pub enum Kind {
    False,
    Leaf,
    Gate(u32, u32),
}

/// The kind of a row at its place. "Nothing else is a row."
pub fn kind(i: usize, row: [u32; 2]) -> Option<Kind> {
    // "A gate at row i is two edge codes, each below 2·i."
    let below = |edge: u32| (edge as usize) < 2 * i;
    match row {
        ROW_0 if i == 0 => Some(Kind::False),
        LEAF if i > 0 => Some(Kind::Leaf),
        [a, b] if below(a) && below(b) => Some(Kind::Gate(a, b)),
        _ => None,
    }
}

/// A graph as it is lent: the counts may be anything, and words may stand beyond them.
#[derive(Debug, Clone, PartialEq, Eq)]
pub struct Lent {
    pub words: [Vec<u32>; SLICES],
    pub counts: [u64; SLICES],
}

impl Lent {
    /// Row 0 alone.
    pub fn new() -> Self {
        let mut words: [Vec<u32>; SLICES] = Default::default();
        words[ROWS] = ROW_0.to_vec();
        let mut graph = Self {
            words,
            counts: [0; SLICES],
        };
        graph.count_all();
        graph
    }

    /// Every count becomes the room.
    pub fn count_all(&mut self) {
        self.counts = std::array::from_fn(|slice| self.room(slice) as u64);
    }

    /// The graph lent from a slot on, with its counts from a scalar on.
    pub fn of_case(case: &Case, slot: usize, scalar: usize) -> Self {
        Self {
            words: std::array::from_fn(|slice| case.slot(slot + slice).to_vec()),
            counts: std::array::from_fn(|slice| case.scalar(scalar + slice)),
        }
    }

    /// The slices as slots, from a slot on.
    pub fn slots(&self, slot: usize) -> impl Iterator<Item = Slot> {
        let words = self.words.iter().cloned().enumerate();
        words.map(move |(slice, words)| Slot {
            number: slot + slice,
            words,
        })
    }

    /// Whole entries lent: "an odd last word is none".
    pub fn room(&self, slice: usize) -> usize {
        self.words[slice].len() / WIDTH[slice]
    }

    /// The entries that are counted, where the count is not above the room.
    pub fn counted(&self, slice: usize) -> usize {
        self.room(slice)
            .min(usize::try_from(self.counts[slice]).unwrap_or(usize::MAX))
    }

    /// The counted words alone, where no count is above the room.
    pub fn without_spare_room(&self) -> Self {
        let counted = |slice| &self.words[slice][..self.counted(slice) * WIDTH[slice]];
        Self {
            words: std::array::from_fn(|slice| counted(slice).to_vec()),
            counts: self.counts,
        }
    }

    pub fn row(&self, i: usize) -> [u32; 2] {
        [self.words[ROWS][2 * i], self.words[ROWS][2 * i + 1]]
    }

    pub fn kind(&self, i: usize) -> Option<Kind> {
        kind(i, self.row(i))
    }

    /// Input, next and init.
    pub fn latch(&self, i: usize) -> [u32; 3] {
        std::array::from_fn(|part| self.words[LATCHES][3 * i + part])
    }

    /// Input, next and init of every latch that is counted.
    pub fn latches(&self) -> impl Iterator<Item = [u32; 3]> {
        (0..self.counted(LATCHES)).map(|i| self.latch(i))
    }

    /// "A leaf in neither list is an orphan": those of a well-formed graph.
    pub fn orphans(&self) -> Vec<u32> {
        let mut listed = vec![false; self.counted(ROWS)];
        let inputs = self.list(INPUTS).iter().copied();
        for leaf in inputs.chain(self.latches().map(|[input, ..]| input)) {
            listed[leaf as usize] = true;
        }
        let is_orphan = |&id: &usize| self.kind(id) == Some(Kind::Leaf) && !listed[id];
        let orphans = (0..self.counted(ROWS)).filter(is_orphan);
        orphans.map(|id| id as u32).collect()
    }

    /// The counted words of a list of one word an entry.
    pub fn list(&self, slice: usize) -> &[u32] {
        &self.words[slice][..self.counted(slice)]
    }
}

/// The crate's edge of a code: "2·id + 1 if complemented, else 2·id".
pub fn edge(code: u32) -> AigEdge {
    AigEdge::new((code / 2) as usize, code % 2 == 1)
}

/// The code of the crate's edge, where its id is at most 2,147,483,647.
pub fn code(edge: AigEdge) -> u32 {
    let code = 2 * edge.node_id() + usize::from(edge.compl());
    u32::try_from(code).expect("an id above 2,147,483,647 has no code")
}

/// The crate's graph of rows alone; none where a row is of no kind.
pub fn aig_of_rows(rows: impl IntoIterator<Item = [u32; 2]>) -> Option<Aig> {
    let mut aig = Aig::new();
    for (i, row) in rows.into_iter().enumerate() {
        match kind(i, row)? {
            // the crate has row 0 from the start
            Kind::False => {}
            Kind::Leaf => {
                aig.new_leaf_node();
            }
            Kind::Gate(a, b) => push_gate(&mut aig, edge(a), edge(b)),
        }
    }
    Some(aig)
}

/// The crate sorts the fanins of a new gate; they are set again, so that an unsorted gate stays.
fn push_gate(aig: &mut Aig, a: AigEdge, b: AigEdge) {
    let gate = aig.trivial_new_and_node(a, b).node_id();
    aig.nodes[gate].set_fanin0(a);
    aig.nodes[gate].set_fanin1(b);
}

/// The crate's graph of a well-formed one.
pub fn to_aig(graph: &Lent) -> Aig {
    let rows = (0..graph.counted(ROWS)).map(|i| graph.row(i));
    let mut aig = aig_of_rows(rows).expect("a well-formed graph has rows of the three kinds");
    let edges = |slice| graph.list(slice).iter().map(|&e| edge(e)).collect();
    aig.inputs = graph.list(INPUTS).iter().map(|&id| id as usize).collect();
    aig.latchs = (0..graph.counted(LATCHES))
        .map(|i| to_latch(graph.latch(i)))
        .collect();
    aig.constraints = edges(CONSTRAINTS);
    aig.bads = edges(BADS);
    aig.outputs = edges(OUTPUTS);
    aig.fairness = edges(FAIRNESS);
    let mut start = 0;
    for &end in graph.list(ENDS) {
        let set = &graph.list(EDGES)[start..end as usize];
        aig.justice.push(set.iter().map(|&e| edge(e)).collect());
        start = end as usize;
    }
    aig
}

fn to_latch([input, next, init]: [u32; 3]) -> AigLatch {
    let init = (init != NONE).then(|| edge(init));
    AigLatch::new(input as usize, edge(next), init)
}

/// The words of the crate's graph, with no room beyond the counts.
pub fn of_aig(aig: &Aig) -> Lent {
    let mut graph = Lent::new();
    let codes = |edges: &[AigEdge]| edges.iter().map(|&e| code(e)).collect();
    for node in &aig.nodes[1..] {
        let row = if node.is_and() {
            [code(node.fanin0()), code(node.fanin1())]
        } else {
            LEAF
        };
        graph.words[ROWS].extend(row);
    }
    graph.words[INPUTS] = aig.inputs.iter().map(|&id| id as u32).collect();
    for latch in &aig.latchs {
        let init = latch.init.map_or(NONE, code);
        graph.words[LATCHES].extend([latch.input as u32, code(latch.next), init]);
    }
    graph.words[CONSTRAINTS] = codes(&aig.constraints);
    graph.words[BADS] = codes(&aig.bads);
    graph.words[OUTPUTS] = codes(&aig.outputs);
    for set in &aig.justice {
        graph.words[EDGES].extend(set.iter().map(|&e| code(e)));
        let end = graph.words[EDGES].len() as u32;
        graph.words[ENDS].push(end);
    }
    graph.words[FAIRNESS] = codes(&aig.fairness);
    graph.count_all();
    graph
}

#[cfg(test)]
mod tests {
    use super::*;
    use crate::rng::Rng;
    use crate::wellformed::{self, Size};

    #[test]
    fn random_graphs_come_back_from_the_crate() {
        for seed in 0..1_000 {
            let mut rng = Rng::new(seed);
            let rows = rng.between(1, 200);
            let graph = wellformed::graph(&mut rng, Size::Rows(rows));
            assert_eq!(of_aig(&to_aig(&graph)), graph.without_spare_room());
        }
    }

    /// An unsorted gate, one with its ids equal, and one over the constants; three justice sets.
    #[test]
    fn a_graph_by_hand_comes_back_from_the_crate() {
        let mut graph = Lent::new();
        graph.words[ROWS].extend([LEAF, LEAF, [5, 2], [3, 2], [1, 0]].as_flattened());
        graph.words[INPUTS] = vec![2];
        graph.words[LATCHES] = vec![1, 6, NONE];
        graph.words[OUTPUTS] = vec![11];
        graph.words[ENDS] = vec![0, 2, 2];
        graph.words[EDGES] = vec![7, 8];
        graph.count_all();
        let aig = to_aig(&graph);
        assert_eq!(aig[3].fanin(), (edge(5), edge(2)));
        assert_eq!(aig.justice, [vec![], vec![edge(7), edge(8)], vec![]]);
        assert_eq!(of_aig(&aig), graph);
    }
}
