//! Calls 20 to 24: one row. They are lent the rows and the used count and scan no row.

use super::{Call, Count};
use crate::case::{Answer, Case, Outcome};
use crate::damaged::{self, boundary, hostile_count};
use crate::graph::{self, Kind, LEAF, ROWS, code, kind};
use crate::refuse::bad_rows;
use crate::rng::Rng;
use crate::wellformed::{self, Size};
use aig::AigNode;

pub const CALLS: &[Call] = &[
    call(20, "rows::is_and", is_and),
    call(21, "rows::is_leaf", is_leaf),
    call(22, "rows::fanin0", fanin0),
    call(23, "rows::fanin1", fanin1),
    call(24, "rows::fanin", fanin),
];

const fn call(number: u64, name: &'static str, expected: fn(&Case) -> Outcome) -> Call {
    Call {
        number,
        name,
        random,
        expected,
        counts: &[Count {
            slot: ROWS,
            scalar: 0,
            width: 2,
        }],
        ids: &[1],
        id_slots: &[],
        edges: &[],
        edge_slots: &[],
    }
}

fn random(rng: &mut Rng, call: u64) -> Case {
    let size = match rng.below(600) {
        0 => Size::Rows(rng.between(1_000, 20_000)),
        1..20 => Size::Rows(rng.between(60, 300)),
        _ => Size::Rows(rng.between(1, 20)),
    };
    let graph = match rng.below(3) {
        0 => damaged::marked(rng, size).0,
        _ => wellformed::graph(rng, size),
    };
    let mut used = graph.counts[ROWS];
    if rng.one_in(8) {
        used = hostile_count(rng, graph.room(ROWS));
    }
    let id = random_id(rng, graph.counted(ROWS));
    let mut rows = graph.words[ROWS].clone();
    if rng.one_in(5) && (id as usize) < rows.len() / 2 {
        let word = 2 * id as usize + rng.below(2);
        rows[word] = boundary(rng, id as usize);
    }
    Case::new(call, &[used, id]).lend(ROWS, rows)
}

/// Mostly a used row, at times one at the boundary. Ids stay below 2^32, so that it does not
/// matter how wide the argument is.
pub fn random_id(rng: &mut Rng, used: usize) -> u64 {
    match rng.below(8) {
        0 => rng.pick(&[0, used, used + 1, 1 << 31, u32::MAX as usize]) as u64,
        1 => u64::from(rng.word()),
        _ => rng.below(used.max(1)) as u64,
    }
}

/// A used row, and the crate's node of it where every used row is of one of the three kinds.
struct Row {
    id: usize,
    words: [u32; 2],
    node: Option<AigNode>,
}

/// The row that is asked for, or the refusal. "Constructors look only at counts and edges [..]
/// nor do the calls that read one row's fanins [scan rows], where an id not used is 4 too".
fn row(case: &Case) -> Result<Row, Answer> {
    // "an odd last word is none"
    let (rows, _) = case.slot(ROWS).as_chunks::<2>();
    if bad_rows(rows.len(), case.scalar(0)) {
        return Err(Answer::BAD_SIZES);
    }
    if case.scalar(1) >= case.scalar(0) {
        return Err(Answer::BAD_ARGUMENT);
    }
    let used = &rows[..case.scalar(0) as usize];
    let id = case.scalar(1) as usize;
    let aig = graph::aig_of_rows(used.iter().copied());
    Ok(Row {
        id,
        words: used[id],
        node: aig.map(|aig| aig[id].clone()),
    })
}

impl Row {
    /// "A gate at row i is two edge codes, each below 2·i."
    fn is_and(&self) -> bool {
        match &self.node {
            Some(node) => node.is_and(),
            None => matches!(kind(self.id, self.words), Some(Kind::Gate(..))),
        }
    }

    /// "A leaf, at any later row [than 0], is (4294967295, 0)."
    fn is_leaf(&self) -> bool {
        match &self.node {
            Some(node) => node.is_leaf(),
            None => self.id > 0 && self.words == LEAF,
        }
    }

    /// The fanins of a gate, by the crate's three calls where it has the node.
    fn fanins(&self) -> Fanins {
        let codes = |node: &AigNode| Fanins {
            fanin0: code(node.fanin0()),
            fanin1: code(node.fanin1()),
            both: [code(node.fanin().0), code(node.fanin().1)],
        };
        let [fanin0, fanin1] = self.words;
        let words = Fanins {
            fanin0,
            fanin1,
            both: self.words,
        };
        self.node.as_ref().map_or(words, codes)
    }
}

struct Fanins {
    fanin0: u32,
    fanin1: u32,
    both: [u32; 2],
}

fn asked(case: &Case, ask: fn(&Row) -> bool) -> Outcome {
    match row(case) {
        Ok(row) => Outcome::reading(case, Answer::DONE, &[ask(&row).into()]),
        Err(answer) => Outcome::reading(case, answer, &[0]),
    }
}

fn is_and(case: &Case) -> Outcome {
    asked(case, Row::is_and)
}

fn is_leaf(case: &Case) -> Outcome {
    asked(case, Row::is_leaf)
}

/// "Fanin of a row that isn't a gate: 4."
fn read<const N: usize>(case: &Case, read: fn(Fanins) -> [u32; N]) -> Outcome {
    let gate = row(case).and_then(|row| match row.is_and() {
        true => Ok(row.fanins()),
        false => Err(Answer::BAD_ARGUMENT),
    });
    match gate {
        Ok(fanins) => Outcome::reading(case, Answer::DONE, &read(fanins).map(u64::from)),
        Err(answer) => Outcome::reading(case, answer, &[0; N]),
    }
}

fn fanin0(case: &Case) -> Outcome {
    read(case, |fanins| [fanins.fanin0])
}

fn fanin1(case: &Case) -> Outcome {
    read(case, |fanins| [fanins.fanin1])
}

fn fanin(case: &Case) -> Outcome {
    read(case, |fanins| fanins.both)
}
