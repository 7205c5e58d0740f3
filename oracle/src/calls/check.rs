//! Call 30: the check of a whole graph.

use super::{Call, Count, MARKS, clear, given_otherwise, graph_counts};
use crate::case::{Answer, Case, Outcome};
use crate::damaged;
use crate::graph::{Lent, ROWS, SLICES, of_aig, to_aig};
use crate::refuse::refusal;
use crate::rng::Rng;
use crate::wellformed::{self, Size};

pub const NUMBER: u64 = 30;

pub const CALLS: &[Call] = &[Call {
    number: NUMBER,
    name: "graph::check",
    random,
    expected,
    counts: &COUNTS,
    ids: &[],
    id_slots: &[],
    edges: &[],
    edge_slots: &[],
}];

const COUNTS: [Count; SLICES] = graph_counts(0, 0);

fn random(rng: &mut Rng, _: u64) -> Case {
    let size = Size::any(rng);
    let (graph, marks) = if rng.one_in(3) {
        wellformed::marked(rng, size)
    } else {
        damaged::marked(rng, size)
    };
    given_otherwise(rng, case(&graph, marks))
}

/// The graph and its marks, every slice given.
pub fn case(graph: &Lent, marks: Vec<u32>) -> Case {
    let mut case = Case::new(NUMBER, &graph.counts);
    case.slots.extend(graph.slots(0));
    case.lend(MARKS, marks)
}

/// What is well-formed goes through the crate and comes back; that is held here on every such case.
fn expected(case: &Case) -> Outcome {
    let graph = Lent::of_case(case, 0, 0);
    let answer = refusal(&graph, case.slot(MARKS)).unwrap_or(Answer::DONE);
    if answer == Answer::DONE {
        assert_eq!(of_aig(&to_aig(&graph)), graph.without_spare_room());
    }
    let mut outcome = Outcome::reading(case, answer, &[]);
    if answer != Answer::BAD_SIZES {
        clear(&mut outcome, &[MARKS], graph.counted(ROWS));
    }
    outcome
}

#[cfg(test)]
mod tests {
    use super::*;
    use std::collections::HashSet;

    #[test]
    fn marks_are_cleared_over_the_used_rows_unless_the_answer_is_1() {
        let marks_after = |used: u64, first: u32| {
            let mut graph = Lent::new();
            graph.words[ROWS] = vec![first, 0, 0, 1];
            graph.counts[ROWS] = used;
            let outcome = expected(&case(&graph, vec![5, 6, 7]));
            (outcome.answer, outcome.slots[SLICES].words.clone())
        };
        let first = crate::graph::ROW_0[0];
        assert_eq!(marks_after(2, first), (Answer::DONE, vec![0, 0, 7]));
        assert_eq!(marks_after(1, 3), (Answer::bad_row(0), vec![0, 6, 7]));
        assert_eq!(marks_after(0, first), (Answer::BAD_SIZES, vec![5, 6, 7]));
    }

    /// Every number and list, ends and justice edges, the first entry and a later one.
    #[test]
    fn random_cases_reach_every_kind_of_answer() {
        let mut reached = HashSet::new();
        for seed in 0..4_000 {
            let answer = expected(&random(&mut Rng::new(seed), NUMBER)).answer;
            let list = if answer.number == 3 { answer.place } else { 0 };
            reached.insert((answer.number, list, answer.index > 0, answer.second > 0));
        }
        for number in 0..=2 {
            assert!(reached.contains(&(number, 0, false, false)), "{number}");
        }
        for list in 1..=7 {
            for later in [false, true] {
                assert!(reached.contains(&(3, list, later, false)), "list {list}");
                assert!(reached.contains(&(3, 6, later, true)), "justice edges");
            }
        }
    }
}
