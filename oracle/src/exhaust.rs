//! Every graph of three gates over two leaves, compared.

use crate::calls::clauses::{self, CNF};
use crate::calls::{self, Call};
use crate::case::Case;
use crate::compare::{Tally, compare_cases, print_tally};
use crate::graph::{INPUTS, LEAF, Lent, OUTPUTS, ROWS};
use crate::program::Program;
use crate::rng::Rng;
use std::io;

/// The first row that is a gate, and the rows in all.
const FIRST: usize = 3;
const USED: usize = 6;
/// Cases in one script.
const CASES: usize = 10_000;

/// Of `every` graphs about one: true where the program writes the clauses of each as expected.
pub fn exhaust(program: &Program, every: u64) -> io::Result<bool> {
    let mut tally = Tally::new();
    let mut cases = graphs(every).flat_map(|graph| [0, 1].map(|on| case(&graph, on)));
    let mut same = true;
    while same {
        let batch: Vec<Case> = cases.by_ref().take(CASES).collect();
        if batch.is_empty() {
            break;
        }
        same = compare_cases(program, &batch, &mut tally)?;
    }
    let calls: Vec<&Call> = calls::all().filter(|call| call.number == CNF).collect();
    print_tally(&calls, &tally);
    Ok(same)
}

/// Room for the clauses alone where shortcuts are off, else for a word more.
fn case(graph: &Lent, shortcuts: u64) -> Case {
    let need = clauses::words(graph, shortcuts != 0).len() + shortcuts as usize;
    let mut case = clauses::case(graph, shortcuts, vec![7; need], vec![7; USED]);
    case.slots.retain(|slot| !slot.words.is_empty());
    case
}

/// The graphs, or of `every` about one, spread over all of them.
pub fn graphs(every: u64) -> impl Iterator<Item = Lent> {
    let all: u32 = (FIRST..USED).map(pairs).product();
    let is_chosen = move |&number: &u32| Rng::of(&[number.into()]).number().is_multiple_of(every);
    (0..all).filter(is_chosen).map(graph)
}

/// The pairs of edges below a row.
fn pairs(row: usize) -> u32 {
    (2 * row as u32).pow(2)
}

/// Rows 1 and 2 are leaves, 3, 4 and 5 any pairs of edges below them; the last is the output.
fn graph(mut number: u32) -> Lent {
    let mut graph = Lent::new();
    graph.words[ROWS].extend([LEAF, LEAF].as_flattened());
    for row in FIRST..USED {
        let (pair, edges) = (number % pairs(row), 2 * row as u32);
        number /= pairs(row);
        graph.words[ROWS].extend([pair / edges, pair % edges]);
    }
    graph.words[INPUTS] = vec![1, 2];
    graph.words[OUTPUTS] = vec![2 * (USED as u32 - 1)];
    graph.count_all();
    graph
}

#[cfg(test)]
mod tests {
    use super::*;
    use crate::refuse::is_sound;
    use std::collections::HashSet;

    #[test]
    fn every_graph_is_there_once() {
        let rows: HashSet<Vec<u32>> = graphs(1).map(|g| g.words[ROWS].clone()).collect();
        assert_eq!(rows.len(), 36 * 64 * 100);
        assert!(graphs(50).all(|graph| is_sound(&graph)));
    }

    /// Of the part that is chosen every edge stands at every place.
    #[test]
    fn a_part_is_spread_over_all_of_them() {
        let part: Vec<Lent> = graphs(100).collect();
        assert!((2_000..2_600).contains(&part.len()));
        for row in FIRST..USED {
            for place in 0..2 {
                let edges = part.iter().map(|g| g.row(row)[place]);
                assert_eq!(edges.collect::<HashSet<u32>>().len(), 2 * row);
            }
        }
    }
}
