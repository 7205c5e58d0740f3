//! The constructors as document 01 has them: a second reading of them beside the crate's, for rows
//! that the crate cannot take. They look only at the number of rows and at the edges.

use crate::graph::{INPUTS, LATCHES, LEAF, Lent, ROWS};

const FALSE: u32 = 0;
const TRUE: u32 = 1;

/// A graph that grows: no room beyond what is counted, and any words in it.
pub struct Table(Lent);

impl Table {
    pub fn new(graph: Lent) -> Self {
        Self(graph)
    }

    pub fn graph(mut self) -> Lent {
        self.0.count_all();
        self.0
    }

    /// "The row number is the id."
    fn push_row(&mut self, row: [u32; 2]) -> u32 {
        let id = self.0.room(ROWS) as u32;
        self.0.words[ROWS].extend(row);
        id
    }

    pub fn leaf(&mut self) -> u32 {
        self.push_row(LEAF)
    }

    pub fn input(&mut self) -> u32 {
        let leaf = self.leaf();
        self.add_input(leaf);
        leaf
    }

    pub fn add_input(&mut self, id: u32) {
        self.0.words[INPUTS].push(id);
    }

    /// "A latch is input (a leaf's id), next (an edge), init (an edge, or 4294967295 for none)."
    pub fn latch(&mut self, next: u32, init: u32) -> u32 {
        let leaf = self.leaf();
        self.add_latch(leaf, next, init);
        leaf
    }

    pub fn add_latch(&mut self, id: u32, next: u32, init: u32) {
        self.0.words[LATCHES].extend([id, next, init]);
    }

    /// "`trivial_new_and_node` puts the smaller id first, keeps the given order for equal ids, and
    /// always takes a row."
    pub fn trivial_and(&mut self, a: u32, b: u32) -> u32 {
        2 * self.push_row(smaller_id_first(a, b))
    }

    /// "`new_and_node` sorts likewise, then in this order: first true gives the second; first
    /// false gives false; second true gives the first; second false gives false; equal gives the
    /// first; complementary gives false; else a row is added."
    pub fn and(&mut self, a: u32, b: u32) -> u32 {
        match smaller_id_first(a, b) {
            [TRUE, second] => second,
            [FALSE, _] => FALSE,
            [first, TRUE] => first,
            [_, FALSE] => FALSE,
            [first, second] if first == second => first,
            [first, second] if first == not(second) => FALSE,
            [first, second] => self.trivial_and(first, second),
        }
    }

    pub fn trivial_or(&mut self, a: u32, b: u32) -> u32 {
        not(self.trivial_and(not(a), not(b)))
    }

    pub fn or(&mut self, a: u32, b: u32) -> u32 {
        not(self.and(not(a), not(b)))
    }

    /// "empty ands is true, empty ors is false, one entry is itself": from the left.
    pub fn trivial_ands(&mut self, edges: &[u32]) -> u32 {
        let edges = edges.iter().copied();
        edges.reduce(|a, b| self.trivial_and(a, b)).unwrap_or(TRUE)
    }

    pub fn ands(&mut self, edges: &[u32]) -> u32 {
        let edges = edges.iter().copied();
        edges.reduce(|a, b| self.and(a, b)).unwrap_or(TRUE)
    }

    pub fn trivial_ors(&mut self, edges: &[u32]) -> u32 {
        let edges = edges.iter().copied();
        edges.reduce(|a, b| self.trivial_or(a, b)).unwrap_or(FALSE)
    }

    pub fn ors(&mut self, edges: &[u32]) -> u32 {
        let edges = edges.iter().copied();
        edges.reduce(|a, b| self.or(a, b)).unwrap_or(FALSE)
    }

    pub fn imply(&mut self, a: u32, b: u32) -> u32 {
        self.or(not(a), b)
    }

    /// Both or neither.
    pub fn eq(&mut self, a: u32, b: u32) -> u32 {
        let both = self.and(a, b);
        let neither = self.and(not(a), not(b));
        self.or(both, neither)
    }
}

fn not(edge: u32) -> u32 {
    edge ^ 1
}

fn smaller_id_first(a: u32, b: u32) -> [u32; 2] {
    if b / 2 < a / 2 { [b, a] } else { [a, b] }
}

#[cfg(test)]
mod tests {
    use super::*;
    use crate::graph::NONE;

    /// Row 0 and two leaves, as in M5.
    fn three_rows() -> Table {
        let mut graph = Lent::new();
        graph.words[ROWS].extend([LEAF, LEAF].as_flattened());
        Table::new(graph)
    }

    /// What it answers, and the words of the rows that it adds.
    #[track_caller]
    fn adds(make: impl Fn(&mut Table) -> u32, answer: u32, rows: &[[u32; 2]]) {
        let mut table = three_rows();
        assert_eq!(make(&mut table), answer);
        assert_eq!(&table.graph().words[ROWS][6..], rows.as_flattened());
    }

    #[test]
    fn m1_to_m6() {
        adds(|t| t.and(2, 2), 2, &[]);
        adds(|t| t.and(2, 3), 0, &[]);
        adds(|t| t.and(1, 5), 5, &[]);
        adds(|t| t.and(0, 5), 0, &[]);
        adds(|t| t.and(4, 2), 6, &[[2, 4]]);
        adds(|t| t.eq(2, 4), 11, &[[2, 4], [3, 5], [7, 9]]);
        adds(|t| t.eq(2, 2), 1, &[]);
    }

    #[test]
    fn gates_of_two() {
        adds(|t| t.trivial_and(4, 3), 6, &[[3, 4]]);
        adds(|t| t.trivial_and(3, 2), 6, &[[3, 2]]);
        adds(|t| t.trivial_and(1, 0), 6, &[[1, 0]]);
        adds(|t| t.trivial_or(4, 0), 7, &[[1, 5]]);
        adds(|t| t.or(4, 2), 7, &[[3, 5]]);
        adds(|t| t.or(4, 0), 4, &[]);
        adds(|t| t.or(4, 1), 1, &[]);
        adds(|t| t.or(4, 5), 1, &[]);
        adds(|t| t.imply(2, 4), 7, &[[2, 5]]);
        adds(|t| t.imply(2, 2), 1, &[]);
        adds(|t| t.imply(1, 4), 4, &[]);
        adds(|t| t.imply(4, 0), 5, &[]);
        adds(|t| t.eq(2, 3), 0, &[]);
        adds(|t| t.eq(0, 4), 5, &[]);
        adds(|t| t.eq(4, 1), 4, &[]);
    }

    #[test]
    fn gates_of_a_list() {
        adds(|t| t.ands(&[]), 1, &[]);
        adds(|t| t.ors(&[]), 0, &[]);
        adds(|t| t.trivial_ands(&[]), 1, &[]);
        adds(|t| t.trivial_ors(&[]), 0, &[]);
        adds(|t| t.trivial_ands(&[3]), 3, &[]);
        adds(|t| t.trivial_ors(&[3]), 3, &[]);
        adds(|t| t.ands(&[2, 2, 1, 4]), 6, &[[2, 4]]);
        // the rows made before the false stay
        adds(|t| t.ands(&[2, 4, 5, 0, 3]), 0, &[[2, 4], [5, 6]]);
        adds(|t| t.ors(&[2, 4, 1]), 1, &[[3, 5]]);
        adds(|t| t.ors(&[2, 4, 3]), 9, &[[3, 5], [2, 6]]);
        adds(|t| t.trivial_ands(&[1, 2, 2]), 8, &[[1, 2], [2, 6]]);
        adds(|t| t.trivial_ors(&[0, 2, 2]), 9, &[[1, 3], [3, 6]]);
    }

    #[test]
    fn leaves_inputs_and_latches() {
        let mut table = three_rows();
        assert_eq!(table.leaf(), 3);
        assert_eq!(table.input(), 4);
        assert_eq!(table.latch(9, NONE), 5);
        table.add_input(0);
        table.add_latch(1, 2, 3);
        let graph = table.graph();
        assert_eq!(graph.words[ROWS][6..], LEAF.repeat(3));
        assert_eq!(graph.words[INPUTS], [4, 0]);
        assert_eq!(graph.words[LATCHES], [5, 9, NONE, 1, 2, 3]);
        assert_eq!(graph.counts, [6, 2, 2, 0, 0, 0, 0, 0, 0]);
    }
}
