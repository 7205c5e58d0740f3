//! What is expected of a call that leaves a whole graph, in place or in an output graph; and how
//! random cases of such calls are made.

use super::{MARKS, OUTPUT, clear, given_otherwise, shorten};
use crate::case::{Answer, Case, Outcome};
use crate::damaged;
use crate::graph::{Lent, ROWS, SLICES};
use crate::patterns;
use crate::refuse::{bad_contents, bad_room, bad_sizes, short};
use crate::rng::Rng;
use crate::shapes;
use crate::tables;
use crate::wellformed::{self, Marked};

/// The first slot of the second graph, or of the output graph.
pub const OTHER: usize = SLICES;

/// The graphs that such a call is lent.
pub struct Rebuilding<'a> {
    case: &'a Case,
    /// Those that are checked, in their order.
    graphs: Vec<Lent>,
    /// The first slot of the one that is written.
    to: usize,
    /// Is that one lent as room alone?
    is_room: bool,
}

/// What such a call leaves: a graph with no room to spare, and the words of slot 21.
pub struct Rebuilt {
    pub graph: Lent,
    pub words: Vec<u32>,
}

/// The graph alone.
impl From<Lent> for Rebuilt {
    fn from(graph: Lent) -> Self {
        let words = Vec::new();
        Self { graph, words }
    }
}

/// The case of two graphs, both counted.
pub fn of_two(call: u64, first: &Lent, second: &Lent, marks: Vec<u32>) -> Case {
    let mut case = in_place(call, first, marks);
    case.scalars.extend(second.counts);
    case.slots.splice(SLICES..SLICES, second.slots(OTHER));
    case
}

/// The case of a graph and the room of an output graph.
pub fn with_room(call: u64, graph: &Lent, room: &Lent, marks: Vec<u32>) -> Case {
    let mut case = in_place(call, graph, marks);
    case.slots.splice(SLICES..SLICES, room.slots(OTHER));
    case
}

/// The case of a graph alone.
pub fn in_place(call: u64, graph: &Lent, marks: Vec<u32>) -> Case {
    let mut case = Case::new(call, &graph.counts);
    case.slots.extend(graph.slots(0));
    case.lend(MARKS, marks)
}

/// The first of random cases that the program has room for: not for two large graphs.
pub fn first_that_fits(rng: &mut Rng, random: impl Fn(&mut Rng) -> Case) -> Case {
    let mut cases = std::iter::repeat_with(|| random(rng));
    cases.find(Case::fits).expect("there is no end of cases")
}

/// A well-formed graph of any kind.
pub fn random_graph(rng: &mut Rng) -> Lent {
    match rng.below(3) {
        0 => patterns::whole(rng),
        _ => shapes::whole(rng),
    }
}

/// The graph with marks, at times damaged.
pub fn at_times_damaged(rng: &mut Rng, graph: Lent) -> Marked {
    let marks = wellformed::buffer(rng, graph.counted(ROWS));
    let mut marked = (graph, marks);
    if rng.one_in(5) {
        damaged::damage(rng, &mut marked);
    }
    marked
}

/// At times with marks that are shorter than the rows; the slots in another way.
pub fn lent_otherwise(rng: &mut Rng, mut case: Case, used: usize) -> Case {
    if rng.one_in(16) {
        shorten(rng, &mut case, MARKS, used);
    }
    let case = given_otherwise(rng, case);
    tables::with_another_slot(rng, case)
}

impl<'a> Rebuilding<'a> {
    pub fn in_place(case: &'a Case) -> Self {
        Self {
            case,
            graphs: vec![Lent::of_case(case, 0, 0)],
            to: 0,
            is_room: false,
        }
    }

    /// The first of two graphs grows by the second.
    pub fn of_two(case: &'a Case) -> Self {
        let mut rebuilding = Self::in_place(case);
        let other = Lent::of_case(case, OTHER, SLICES);
        rebuilding.graphs.push(other);
        rebuilding
    }

    /// From the graph of a slot to the room of another.
    pub fn from_to(case: &'a Case, from: usize, to: usize) -> Self {
        Self {
            case,
            graphs: vec![Lent::of_case(case, from, 0)],
            to,
            is_room: true,
        }
    }

    /// "of two graphs, the larger number"
    fn used(&self) -> u64 {
        let used = self.graphs.iter().map(|graph| graph.counts[ROWS]);
        used.max().expect("a graph is lent")
    }

    /// The room of the graph that is written.
    pub fn room(&self) -> Lent {
        Lent::of_case(self.case, self.to, 0)
    }

    /// "with two graphs, all of 1 for both, then 2 and 3 for the first (`self`), then for the
    /// second"
    pub fn refusal(&self) -> Option<Answer> {
        let is_bad = self.graphs.iter().any(bad_sizes)
            || (self.is_room && bad_room(&self.room()))
            || short(self.case.slot(MARKS), self.used());
        if is_bad {
            return Some(Answer::BAD_SIZES);
        }
        self.graphs.iter().find_map(bad_contents)
    }

    /// What is expected where the call makes something, or has answer 4, after 1 to 3.
    pub fn outcome(&self, make: impl FnOnce(&[Lent]) -> Result<Rebuilt, Answer>) -> Outcome {
        match self.refusal().map_or_else(|| make(&self.graphs), Err) {
            Ok(made) if self.fits(&made) => self.done(&made),
            Ok(_) => self.refused(Answer::NO_ROOM),
            Err(answer) => self.refused(answer),
        }
    }

    /// "rows, list entries or clause words still free are fewer than the call needs": 5.
    pub fn fits(&self, made: &Rebuilt) -> bool {
        let room = self.room();
        (0..SLICES).all(|slice| made.graph.room(slice) <= room.room(slice))
            && made.words.len() <= self.case.slot(OUTPUT).len()
    }

    /// "A refusal changes no row, list, output or state". The counts come back as they were given.
    pub fn refused(&self, answer: Answer) -> Outcome {
        let mut outcome = Outcome::reading(self.case, answer, &self.graphs[0].counts);
        if answer != Answer::BAD_SIZES {
            self.clear_marks(&mut outcome);
        }
        outcome
    }

    pub fn done(&self, made: &Rebuilt) -> Outcome {
        let mut outcome = Outcome::reading(self.case, Answer::DONE, &made.graph.counts);
        self.clear_marks(&mut outcome);
        for (slice, words) in made.graph.words.iter().enumerate() {
            outcome.write(self.to + slice, words);
        }
        outcome.write(OUTPUT, &made.words);
        outcome
    }

    fn clear_marks(&self, outcome: &mut Outcome) {
        clear(outcome, &[MARKS], self.used() as usize);
    }
}

/// What the tests of these calls share.
#[cfg(test)]
pub mod tests {
    use super::*;
    use crate::calls::Call;
    use crate::rng::Rng;
    use std::collections::{HashMap, HashSet};

    /// The words of a slot afterwards.
    pub fn after(outcome: &Outcome, slot: usize) -> &[u32] {
        let slot = outcome.slots.iter().find(|s| s.number == slot);
        slot.map_or(&[], |slot| &slot.words)
    }

    /// Nothing is changed but marks, which are cleared over so many rows, but after 1.
    pub fn left(case: &Case, answer: Answer, used: usize) -> Outcome {
        let mut outcome = Outcome::reading(case, answer, &case.scalars[..SLICES]);
        if answer != Answer::BAD_SIZES {
            outcome.write(MARKS, &vec![0; used]);
        }
        outcome
    }

    /// The room of an output graph, with some words more in each slice.
    pub fn room_for(graph: &Lent, spare: usize) -> Lent {
        let mut room = graph.clone();
        for words in &mut room.words {
            *words = vec![77; words.len() + spare];
        }
        room
    }

    /// How many random cases of a call are of some kind.
    pub struct Reached(HashMap<String, usize>);

    impl Reached {
        #[track_caller]
        pub fn at_least(&self, kind: &str, count: usize) {
            let found = self.0.get(kind).copied().unwrap_or(0);
            assert!(found >= count, "{kind}: {found}");
        }
    }

    /// Their answers, and what else a test finds of them.
    pub fn reached(
        call: &Call,
        seeds: u64,
        kinds: impl Fn(&Case, &Outcome) -> Vec<String>,
    ) -> Reached {
        let mut reached = HashMap::new();
        for seed in 0..seeds {
            let case = (call.random)(&mut Rng::new(seed), call.number);
            assert!(case.fits(), "seed {seed}");
            let outcome = (call.expected)(&case);
            let mut kinds: HashSet<String> = kinds(&case, &outcome).into_iter().collect();
            kinds.insert(format!("answer {}", outcome.answer.number));
            for kind in kinds {
                *reached.entry(kind).or_insert(0) += 1;
            }
        }
        Reached(reached)
    }

    /// Is the room that is lent exactly what is made, or which slice alone is short of it?
    pub fn kinds_of_room(made: &Lent, room: &Lent) -> Vec<String> {
        let missing = |slice: usize| made.room(slice).saturating_sub(room.room(slice));
        let short: Vec<usize> = (0..SLICES).filter(|&slice| missing(slice) > 0).collect();
        match short[..] {
            [] if (0..SLICES).all(|s| room.room(s) == made.room(s)) => vec!["exact".into()],
            [] => vec!["room to spare".into()],
            [slice] if missing(slice) == 1 => vec![
                format!("{slice} alone one short"),
                format!("{slice} alone short"),
            ],
            [slice] => vec![format!("{slice} alone short")],
            _ => vec!["several short".into()],
        }
    }
}
