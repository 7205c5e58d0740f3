//! What is expected of a constructor, from the crate and from document 01.

use crate::case::{Answer, Case, Outcome, Slot};
use crate::construct::Table;
use crate::graph::{Lent, ROWS, SLICES, of_aig, to_aig};
use crate::refuse::{bad_list, bad_row, bad_rows, too_long};
use aig::Aig;

/// The first scalar that is no count.
pub const ARGUMENT: usize = SLICES;

/// What a constructor is asked for.
pub struct Making {
    /// The slices of the graph that the call is lent, the rows among them.
    pub lent: &'static [usize],
    /// The ids and edges that it is given; the none word as init is no edge.
    pub ids: Vec<u32>,
    pub edges: Vec<u32>,
    /// Does the call answer an id or an edge?
    pub answers: bool,
    pub by_crate: Box<dyn Fn(&mut Aig) -> u32>,
    pub by_document: Box<dyn Fn(&mut Table) -> u32>,
}

/// The graph that a constructor leaves, with no room to spare, and the id or edge that it answers.
type Made = (Lent, u32);

/// The case of a constructor that is lent some slices of a graph.
pub fn case(call: u64, graph: &Lent, lent: &[usize], arguments: &[u64]) -> Case {
    let mut case = Case::new(call, &graph.counts);
    case.scalars.extend(arguments);
    let slots = graph.slots(0);
    case.slots
        .extend(slots.filter(|s| lent.contains(&s.number)));
    case
}

impl Making {
    /// A call with no argument that answers an id or an edge.
    pub fn new(
        lent: &'static [usize],
        by_crate: impl Fn(&mut Aig) -> u32 + 'static,
        by_document: impl Fn(&mut Table) -> u32 + 'static,
    ) -> Self {
        Self {
            lent,
            ids: Vec::new(),
            edges: Vec::new(),
            answers: true,
            by_crate: Box::new(by_crate),
            by_document: Box::new(by_document),
        }
    }

    pub fn outcome(&self, case: &Case) -> Outcome {
        let graph = Lent::of_case(case, 0, 0);
        match self.made(&graph) {
            Ok((made, number)) => Outcome {
                answer: Answer::DONE,
                results: self.results(self.counts_after(&graph, &made), number),
                slots: slots_after(case, &made),
            },
            Err(answer) => Outcome::reading(case, answer, &self.results(graph.counts, 0)),
        }
    }

    /// The rows or entries that it needs of a slice.
    pub fn need(&self, graph: &Lent, slice: usize) -> usize {
        let seen = self.seen(graph);
        self.of_document(&seen).0.room(slice) - seen.room(slice)
    }

    fn results(&self, counts: [u64; SLICES], number: u32) -> Vec<u64> {
        let number = self.answers.then_some(u64::from(number));
        counts.into_iter().chain(number).collect()
    }

    /// "Constructors look only at counts and edges: 1, then 4 for an edge or a given id that is
    /// not used (the none word as init is no edge), then 5."
    fn made(&self, graph: &Lent) -> Result<Made, Answer> {
        if self.bad_sizes(graph) {
            return Err(Answer::BAD_SIZES);
        }
        if !self.all_used(graph.counts[ROWS]) {
            return Err(Answer::BAD_ARGUMENT);
        }
        let made = self.made_of(&self.seen(graph));
        let fits = |&slice: &usize| made.0.room(slice) <= graph.room(slice);
        if !self.lent.iter().all(fits) {
            return Err(Answer::NO_ROOM);
        }
        Ok(made)
    }

    /// Answer 1 for what is lent and no more.
    fn bad_sizes(&self, graph: &Lent) -> bool {
        let mut lists = self.lent.iter().filter(|&&slice| slice != ROWS);
        bad_rows(graph.room(ROWS), graph.counts[ROWS])
            || lists.any(|&list| bad_list(graph, list))
            || too_long(&self.edges)
    }

    fn all_used(&self, used: u64) -> bool {
        let of_edges = self.edges.iter().map(|edge| edge / 2);
        let mut ids = self.ids.iter().copied().chain(of_edges);
        ids.all(|id| u64::from(id) < used)
    }

    /// The counted part of what is lent, where it has no answer 1; the other lists are empty.
    fn seen(&self, graph: &Lent) -> Lent {
        let mut seen = graph.without_spare_room();
        for slice in (0..SLICES).filter(|slice| !self.lent.contains(slice)) {
            seen.words[slice].clear();
        }
        seen.count_all();
        seen
    }

    /// From the crate where it can take the rows, else from document 01 alone. That both agree is
    /// held here on every such case.
    fn made_of(&self, seen: &Lent) -> Made {
        let of_document = self.of_document(seen);
        let Some(of_crate) = self.of_crate(seen) else {
            return of_document;
        };
        assert_eq!(of_crate, of_document);
        of_crate
    }

    /// None where a row is of no kind. The entries of the lists may be anything: they pass through
    /// the crate as they are.
    fn of_crate(&self, seen: &Lent) -> Option<Made> {
        if bad_row(seen).is_some() {
            return None;
        }
        let mut aig = to_aig(seen);
        let number = (self.by_crate)(&mut aig);
        Some((of_aig(&aig), number))
    }

    fn of_document(&self, seen: &Lent) -> Made {
        let mut table = Table::new(seen.clone());
        let number = (self.by_document)(&mut table);
        (table.graph(), number)
    }

    /// A count of a list that is not lent comes back as it was given.
    fn counts_after(&self, graph: &Lent, made: &Lent) -> [u64; SLICES] {
        std::array::from_fn(|slice| match self.lent.contains(&slice) {
            true => made.counts[slice],
            false => graph.counts[slice],
        })
    }
}

/// "Words beyond what a call says it writes stay as they were."
pub fn slots_after(case: &Case, made: &Lent) -> Vec<Slot> {
    let mut slots = case.slots.clone();
    for slot in slots.iter_mut().filter(|slot| slot.number < SLICES) {
        let words = &made.words[slot.number];
        slot.words[..words.len()].copy_from_slice(words);
    }
    slots
}

/// What a test finds of a case.
#[cfg(test)]
#[derive(Debug, PartialEq, Eq, Hash)]
pub enum Agreement {
    /// The crate does what document 01 says.
    Held,
    /// The crate cannot take the rows.
    NoCrate,
    /// Answer 1 or 4.
    Refused,
}

#[cfg(test)]
impl Making {
    /// Holds the crate to document 01, whether there is room or not.
    pub fn agreement(&self, case: &Case) -> Agreement {
        let graph = Lent::of_case(case, 0, 0);
        if self.bad_sizes(&graph) || !self.all_used(graph.counts[ROWS]) {
            return Agreement::Refused;
        }
        let seen = self.seen(&graph);
        let Some(of_crate) = self.of_crate(&seen) else {
            return Agreement::NoCrate;
        };
        assert_eq!(of_crate, self.of_document(&seen), "{case:?}");
        Agreement::Held
    }
}
