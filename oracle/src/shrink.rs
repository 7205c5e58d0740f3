//! Makes a case that fails smaller while it still fails.

use crate::calls::{self, Call, Count, INPUT_BYTES, STATE, VALUES};
use crate::case::Case;
use crate::graph::{EDGES, ENDS, INPUTS, LATCHES, ROW_0, ROWS, SLICES};
use std::ops::Range;

/// The bytes of an input and of a latch go with it.
const ALONG: [(usize, usize); 2] = [(INPUTS, INPUT_BYTES), (LATCHES, STATE)];

/// The smallest case found in a bounded number of tries.
pub fn shrink(case: &Case, tries: usize, fails: &mut dyn FnMut(&Case) -> bool) -> Case {
    let mut shrinker = Shrinker {
        best: case.clone(),
        call: calls::of(case),
        tries,
        fails,
    };
    loop {
        let before = shrinker.best.clone();
        shrinker.pass();
        if shrinker.best == before {
            return before;
        }
    }
}

struct Shrinker<'a> {
    best: Case,
    call: &'static Call,
    tries: usize,
    fails: &'a mut dyn FnMut(&Case) -> bool,
}

impl Shrinker<'_> {
    /// Large steps in every slot before small ones in any: the tries are bounded.
    fn pass(&mut self) {
        for at in (0..self.best.slots.len()).rev() {
            let mut without = self.best.clone();
            without.slots.remove(at);
            self.attempt(without);
        }
        for index in 0..self.best.scalars.len() {
            self.lower_scalar(index);
        }
        let mut parts = 1;
        while parts < 2 * self.best.words() {
            for at in 0..self.best.slots.len() {
                self.drop_entries(at, parts);
                self.zero_words(at, parts);
            }
            parts *= 2;
        }
    }

    /// Takes the candidate if it fails as well.
    fn attempt(&mut self, candidate: Case) -> bool {
        if self.tries == 0 || candidate == self.best {
            return false;
        }
        self.tries -= 1;
        let taken = (self.fails)(&candidate);
        if taken {
            self.best = candidate;
        }
        taken
    }

    /// Of two graphs that are counted the same entries first: one may have to be a part of the other.
    fn drop_entries(&mut self, at: usize, parts: usize) {
        let slot = self.best.slots[at].number;
        let counts = self.call.counts;
        let count = counts.iter().find(|count| count.slot == slot);
        let twin = counts.iter().find(|count| count.slot == twin(slot));
        let width = count.map_or(1, |count| count.width);
        let words = self.best.slots[at].words.len();
        self.attempt(without_words(&self.best, at, words - words % width..words));
        for range in ranges(words / width, parts) {
            let words = range.start * width..range.end * width;
            let plain = without_words(&self.best, at, words);
            let counted = count.map(|count| without_entries(&self.best, count, &range, self.call));
            let both = counted.as_ref().zip(twin);
            let both = both.map(|(case, twin)| without_entries(case, twin, &range, self.call));
            let candidates = [both, counted, Some(plain)].into_iter().flatten();
            for candidate in candidates {
                if self.attempt(candidate) {
                    break;
                }
            }
        }
    }

    fn zero_words(&mut self, at: usize, parts: usize) {
        for range in ranges(self.best.slots[at].words.len(), parts) {
            let mut zeroed = self.best.clone();
            zeroed.slots[at].words[range].fill(0);
            self.attempt(zeroed);
        }
    }

    /// By all of it, by half of it, and so on to one.
    fn lower_scalar(&mut self, index: usize) {
        let mut step = self.best.scalars[index];
        while step > 0 {
            let mut lowered = self.best.clone();
            if let Some(scalar) = lowered.scalars[index].checked_sub(step) {
                lowered.scalars[index] = scalar;
                self.attempt(lowered);
            }
            step /= 2;
        }
    }
}

/// The parts of a list, the last first, so that those to come stay where they are. None where
/// half as many parts were single entries already.
fn ranges(length: usize, parts: usize) -> impl Iterator<Item = Range<usize>> {
    let size = length.div_ceil(parts).max(1);
    let length = if parts < 2 * length { length } else { 0 };
    let starts = (0..length).step_by(size).rev();
    starts.map(move |start| start..length.min(start + size))
}

fn without_words(case: &Case, at: usize, words: Range<usize>) -> Case {
    let mut case = case.clone();
    let list = &mut case.slots[at].words;
    let end = words.end.min(list.len());
    list.drain(words.start.min(end)..end);
    case
}

/// The same slice of the other graph.
fn twin(slot: usize) -> usize {
    match slot {
        slot if slot < SLICES => slot + SLICES,
        slot => slot - SLICES,
    }
}

/// Without counted entries and what goes with them.
fn without_entries(case: &Case, count: &Count, dropped: &Range<usize>, call: &Call) -> Case {
    let words = dropped.start * count.width..dropped.end * count.width;
    let at = case.slots.iter().position(|slot| slot.number == count.slot);
    let mut case = at.map_or_else(|| case.clone(), |at| without_words(case, at, words));
    lower_count(&mut case.scalars[count.scalar], dropped);
    renumber(&mut case, count.slot, dropped, call);
    without_bytes(case, count.slot, dropped)
}

/// Without the bytes of the dropped inputs or latches.
fn without_bytes(case: Case, slot: usize, dropped: &Range<usize>) -> Case {
    let bytes = ALONG.iter().find(|(list, _)| *list == slot);
    let at = bytes.and_then(|(_, bytes)| case.slots.iter().position(|s| s.number == *bytes));
    match at {
        Some(at) => without_words(&case, at, dropped.clone()),
        None => case,
    }
}

/// The counted ones of the dropped entries are not counted any more.
fn lower_count(count: &mut u64, dropped: &Range<usize>) {
    let counted = (*count).clamp(dropped.start as u64, dropped.end as u64);
    *count -= counted - dropped.start as u64;
}

/// Without some rows the later ids are smaller, and the edges to a dropped row become constants;
/// values that are counted stand for the rows. Without some justice edges the ends are smaller.
fn renumber(case: &mut Case, slot: usize, dropped: &Range<usize>, call: &Call) {
    if slot == VALUES {
        return renumber_arguments(case, dropped, call);
    }
    let graph = slot - slot % SLICES;
    let slices = case.slots.iter_mut().filter_map(|slot| {
        let slice = slot.number.checked_sub(graph)?;
        (slice < SLICES).then_some((slice, &mut slot.words))
    });
    match slot - graph {
        ROWS => {
            slices.for_each(|(slice, words)| renumber_ids(slice, words, dropped));
            renumber_arguments(case, dropped, call);
        }
        EDGES => {
            for (_, ends) in slices.filter(|(slice, _)| *slice == ENDS) {
                for end in ends {
                    *end -= (*end as usize).clamp(dropped.start, dropped.end) as u32
                        - dropped.start as u32;
                }
            }
        }
        _ => {}
    }
}

fn renumber_arguments(case: &mut Case, dropped: &Range<usize>, call: &Call) {
    for &id in call.ids {
        case.scalars[id] = lower_id(case.scalars[id] as usize, dropped) as u64;
    }
    for &edge in call.edges {
        case.scalars[edge] = lower_edge(case.word(edge), dropped).into();
    }
    for slot in &mut case.slots {
        if call.edge_slots.contains(&slot.number) {
            for edge in &mut slot.words {
                *edge = lower_edge(*edge, dropped);
            }
        }
        if call.id_slots.contains(&slot.number) {
            for id in &mut slot.words {
                *id = lower_id(*id as usize, dropped) as u32;
            }
        }
    }
}

fn lower_id(id: usize, dropped: &Range<usize>) -> usize {
    match id {
        id if id < dropped.start => id,
        id if id < dropped.end => 0,
        id => id - dropped.len(),
    }
}

/// The first words of row 0 and of a leaf, which is the none word too, stay.
fn lower_edge(edge: u32, dropped: &Range<usize>) -> u32 {
    if edge >= ROW_0[0] {
        return edge;
    }
    2 * lower_id(edge as usize / 2, dropped) as u32 + edge % 2
}

fn renumber_ids(slice: usize, words: &mut [u32], dropped: &Range<usize>) {
    for (index, word) in words.iter_mut().enumerate() {
        let is_id = slice == INPUTS || (slice == LATCHES && index % 3 == 0);
        *word = match *word {
            word if slice == ENDS || word >= ROW_0[0] => word,
            word if is_id => lower_id(word as usize, dropped) as u32,
            word => lower_edge(word, dropped),
        };
    }
}

#[cfg(test)]
mod tests {
    use super::*;
    use crate::calls::ternary::{self, Lending};
    use crate::calls::{LIST, OUTPUT, check, clauses, cones, making, merge, unroll};
    use crate::graph::{LEAF, Lent, NONE, OUTPUTS};

    fn expected(case: &Case) -> crate::case::Answer {
        (calls::of(case).expected)(case).answer
    }

    /// A graph of 40 rows in which the second latch has a bad next.
    #[test]
    fn a_bad_latch_is_found_again_with_little_around_it() {
        let mut graph = Lent::new();
        for i in 1..40 {
            let row = if i < 10 { LEAF } else { [2 * i - 1, 2 * i - 2] };
            graph.words[ROWS].extend(row);
        }
        graph.words[INPUTS] = vec![3, 4, 5];
        graph.words[LATCHES] = vec![6, 7, NONE, 8, 80, 1, 9, 70, 60];
        graph.words[EDGES] = vec![70, 71, 72];
        graph.words[ENDS] = vec![1, 3];
        graph.count_all();
        let case = check::case(&graph, vec![1; 50]);
        let mut fails = |case: &Case| expected(case).number == 3 && expected(case).place == 2;
        assert!(fails(&case));
        let smallest = shrink(&case, 2_000, &mut fails);
        assert!(fails(&smallest));
        assert!(smallest.words() <= 6, "{smallest:?}");
    }

    /// 40 rows and 30 edges of the last ones, of which one does not fold: no row is free for it.
    #[test]
    fn a_list_of_edges_shrinks_with_the_rows_below_it() {
        let mut graph = Lent::new();
        graph.words[ROWS].extend(LEAF.repeat(39));
        graph.count_all();
        let mut edges = vec![78; 30];
        edges[20] = 76;
        let case = making::case(55, &graph, &[ROWS], &[]).lend(LIST, edges);
        let mut fails = |case: &Case| expected(case).number == 5;
        assert!(fails(&case));
        let smallest = shrink(&case, 2_000, &mut fails);
        assert!(fails(&smallest));
        assert!(smallest.words() <= 8, "{smallest:?}");
    }

    /// Latches 1 to 12, each with the row after it as its next, and the input 13.
    #[test]
    fn ids_shrink_with_the_rows_below_them() {
        let mut graph = Lent::new();
        graph.words[ROWS].extend(LEAF.repeat(13));
        graph.words[INPUTS] = vec![13];
        for id in 1..13 {
            graph.words[LATCHES].extend([id, 2 * id + 2, NONE]);
        }
        graph.count_all();
        let case = cones::case(cones::COI, &graph, &[9, 3, 0], &[7; 20], &[7; 20]);
        // a latch is crossed
        let mut fails = |case: &Case| {
            let outcome = (calls::of(case).expected)(case);
            let mut flags = outcome.slots.iter().filter(|slot| slot.number == OUTPUT);
            let flagged = |words: &[u32]| words.iter().filter(|&&word| word == 1).count();
            outcome.answer.number == 0 && flags.any(|slot| flagged(&slot.words) >= 3)
        };
        assert!(fails(&case));
        let smallest = shrink(&case, 2_000, &mut fails);
        assert!(fails(&smallest));
        // three rows, their flags, marks and stack, a latch and a root or two
        assert!(smallest.words() <= 6 + 9 + 3 + 2, "{smallest:?}");
    }

    /// The byte of an input or of a latch goes with it, so that the case is not refused.
    #[test]
    fn bytes_shrink_with_their_lists() {
        let mut graph = Lent::new();
        graph.words[ROWS].extend(LEAF.repeat(20));
        graph.words[ROWS].extend([12, 30]);
        graph.words[INPUTS] = (1..=10).collect();
        for id in 11..=20 {
            graph.words[LATCHES].extend([id, 42, NONE]);
        }
        graph.count_all();
        let lending = Lending {
            inputs: vec![0, 1, 2, 0, 1, 2, 0, 1, 2, 0],
            state: vec![1, 1, 0, 0, 2, 2, 1, 1, 0, 0],
            values: vec![77; 25],
            marks: vec![7; 25],
        };
        let case = ternary::case(ternary::STEP, &graph, lending);
        // a latch becomes unknown
        let mut fails = |case: &Case| {
            let outcome = (calls::of(case).expected)(case);
            let mut state = outcome.slots.iter().filter(|slot| slot.number == STATE);
            let is_known = |words: &[u32]| !words.contains(&2);
            outcome.answer.number == 0
                && is_known(case.slot(STATE))
                && state.any(|slot| !is_known(&slot.words))
        };
        let mut known = case.clone();
        for slot in known.slots.iter_mut().filter(|slot| slot.number == STATE) {
            slot.words = vec![1; 10];
        }
        assert!(!fails(&case) && fails(&known));
        let smallest = shrink(&known, 2_000, &mut fails);
        assert!(fails(&smallest));
        // a gate over orphans is enough: its rows, their values and marks, a latch and its byte
        assert!(smallest.words() <= 10 + 10 + 3 + 1, "{smallest:?}");
    }

    #[test]
    fn an_edge_shrinks_with_the_values_below_it() {
        let mut values = vec![1; 40];
        values[30] = 2;
        let case = Case::new(ternary::VALUE, &[35, 61]).lend(VALUES, values);
        let mut fails = |case: &Case| (calls::of(case).expected)(case).results == [2];
        assert!(fails(&case));
        let smallest = shrink(&case, 2_000, &mut fails);
        assert!(fails(&smallest));
        assert!(smallest.words() <= 2, "{smallest:?}");
    }

    /// Gates 31 to 33 of 40 rows are an exclusive or of leaves 9 and 20.
    #[test]
    fn clauses_shrink_with_their_rows() {
        let mut graph = Lent::new();
        graph.words[ROWS].extend(LEAF.repeat(30));
        graph.words[ROWS].extend([18, 41, 19, 40, 63, 65]);
        graph.words[ROWS].extend([66, 4].repeat(6));
        graph.words[OUTPUTS] = vec![70, 67, 2, 78];
        graph.count_all();
        let case = clauses::case(&graph, 1, vec![7; 200], vec![7; 50]);
        // a shortcut is taken: a clause of the last gate has three literals and begins with its
        // complement
        let mut fails = |case: &Case| {
            let outcome = (calls::of(case).expected)(case);
            let mut output = outcome.slots.iter().filter(|slot| slot.number == OUTPUT);
            let is_taken = |words: &[u32]| {
                let words = &words[..outcome.results[0] as usize];
                let clauses = clauses::split(words).expect("the clauses are whole");
                clauses.iter().any(|c| c.len() == 3 && c[0] % 2 == 1)
            };
            output.any(|slot| is_taken(&slot.words))
        };
        assert!(fails(&case));
        let smallest = shrink(&case, 2_000, &mut fails);
        assert!(fails(&smallest));
        // six rows, their marks, an output, and the clauses of four gates
        assert!(smallest.words() <= 12 + 6 + 1 + 38, "{smallest:?}");
    }

    /// Graphs of 30 rows, of which the second has an init of a row.
    #[test]
    fn two_graphs_shrink() {
        let mut graph = Lent::new();
        graph.words[ROWS].extend(LEAF.repeat(20));
        graph.words[ROWS].extend([6, 41].repeat(9));
        graph.words[INPUTS] = vec![4, 6, 8];
        graph.words[LATCHES] = vec![3, 50, NONE, 5, 40, 55];
        graph.words[EDGES] = vec![2, 30, 4];
        graph.words[ENDS] = vec![1, 3];
        graph.count_all();
        let mut own = graph.clone();
        for (slice, words) in graph.words.iter().enumerate() {
            own.words[slice].extend(words);
        }
        let case = merge::case(&own, &graph, vec![7; 35]);
        let mut fails = |case: &Case| {
            let outcome = (calls::of(case).expected)(case);
            let other = Lent::of_case(case, SLICES, SLICES);
            let mut inits = other.latches().map(|[_, _, init]| init);
            outcome.answer.number == 0
                && case.scalar(ROWS) > 1
                && inits.any(|init| init > 1 && init != NONE)
        };
        assert!(fails(&case));
        let smallest = shrink(&case, 2_000, &mut fails);
        assert!(fails(&smallest));
        // two rows and three, room for two of them, a latch and room for it, three marks
        assert!(smallest.words() <= 4 + 6 + 4 + 3 + 3 + 3, "{smallest:?}");
    }

    /// The first rows of the target are those of the other graph: rows go from both at once.
    #[test]
    fn a_target_shrinks_with_what_it_is_unrolled_by() {
        let mut graph = Lent::new();
        graph.words[ROWS].extend(LEAF.repeat(20));
        graph.words[ROWS].extend([[6, 41], [38, 7], [44, 42]].as_flattened());
        graph.words[INPUTS] = (1..=18).collect();
        graph.words[LATCHES] = vec![19, 46, NONE, 20, 3, 1];
        graph.words[OUTPUTS] = vec![46, 8];
        graph.count_all();
        let mut target = graph.clone();
        for words in &mut target.words {
            words.extend(vec![7; words.len()]);
        }
        let case = unroll::case(&target, &graph, vec![7; 30]);
        // a gate is built
        let mut fails = |case: &Case| {
            let outcome = (calls::of(case).expected)(case);
            let rows = outcome.results[ROWS] - case.scalar(ROWS);
            let inputs = outcome.results[INPUTS] - case.scalar(INPUTS);
            outcome.answer.number == 0 && rows > inputs
        };
        assert!(fails(&case));
        let smallest = shrink(&case, 2_000, &mut fails);
        assert!(fails(&smallest));
        // four rows each, of which two leaves, room for their copies, two inputs and four marks
        assert!(smallest.words() <= 8 + 8 + 6 + 2 + 4, "{smallest:?}");
    }
}
