//! `unroll_to` frame by frame, and at every room where a frame more does not fit, compared.

use crate::calls;
use crate::calls::rebuilding::random_graph;
use crate::calls::unroll::{case_to, idle};
use crate::case::{Answer, Case};
use crate::compare::{Tally, compare_cases};
use crate::graph::{Lent, ROWS, SLICES, WIDTH, of_aig, to_aig};
use crate::program::Program;
use crate::rng::Rng;
use crate::rooms::{self, Entries};
use crate::wellformed::{self, garbage};
use std::io;

/// The most frames that are asked.
const FRAMES: usize = 5;
/// The most entries of a slice of a graph.
const SMALL: usize = 60;
/// Graphs in one script.
const GRAPHS: u64 = 20;

/// What the copy needs with no frame, with one and so on.
type Needs = [Entries; FRAMES + 1];

/// The room of a copy, and what it is made to show.
#[derive(Debug)]
struct Trial {
    asked: usize,
    room: Entries,
    /// The frames that fit; none where the copy itself does not.
    finished: Option<usize>,
}

/// The cases of `count` random graphs: true where the program answers all of them as expected.
pub fn frames(program: &Program, count: u64, seed: u64) -> io::Result<bool> {
    let mut tally = Tally::new();
    for start in (0..count).step_by(GRAPHS as usize) {
        let numbers = start..count.min(start + GRAPHS);
        let cases: Vec<Case> = numbers.flat_map(|number| cases(seed, number)).collect();
        if !compare_cases(program, &cases, &mut tally)? {
            return Ok(false);
        }
    }
    let cases: u64 = tally.values().flatten().sum();
    println!("unroll_to on {count} graphs, {cases} cases: no difference");
    Ok(true)
}

/// The cases of the graph of that number.
fn cases(seed: u64, number: u64) -> Vec<Case> {
    let mut rng = Rng::of(&[seed, number]);
    let graph = small_graph(&mut rng);
    cases_of(&mut rng, &graph)
}

fn cases_of(rng: &mut Rng, graph: &Lent) -> Vec<Case> {
    let needs = needs(graph);
    let made = |trial: Trial| {
        let case = case(rng, graph, &trial);
        hold(&case, &trial, &needs);
        case
    };
    trials(&needs).into_iter().map(made).collect()
}

/// The first of random graphs that is small, in rows and in lists: both grow with the frames.
fn small_graph(rng: &mut Rng) -> Lent {
    let is_small = |graph: &Lent| (0..SLICES).all(|slice| graph.counted(slice) <= SMALL);
    let mut graphs = std::iter::repeat_with(|| match rng.below(20) {
        0 => idle(rng),
        _ => random_graph(rng),
    });
    graphs.find(is_small).expect("there is no end of graphs")
}

/// By the crate.
fn needs(graph: &Lent) -> Needs {
    let aig = to_aig(graph);
    std::array::from_fn(|frames| rooms::entries(&of_aig(&aig.unroll_to(frames))))
}

fn trials(needs: &Needs) -> Vec<Trial> {
    all_fit(needs)
        .chain(next_does_not_fit(needs))
        .chain(one_slice_short(needs))
        .chain(copy_does_not_fit(needs))
        .collect()
}

/// Frame by frame: exactly the room of what is asked.
fn all_fit(needs: &Needs) -> impl Iterator<Item = Trial> {
    (0..=FRAMES).map(|frames| Trial {
        asked: frames,
        room: needs[frames],
        finished: Some(frames),
    })
}

/// All frames are asked, and there is exactly the room of the first ones: that of all is the last
/// of `all_fit`. A frame that adds no entry fits into the room before it, which shows nothing.
fn next_does_not_fit(needs: &Needs) -> impl Iterator<Item = Trial> {
    let grows = |&finished: &usize| needs[finished + 1] != needs[finished];
    (0..FRAMES).filter(grows).map(|finished| Trial {
        asked: FRAMES,
        room: needs[finished],
        finished: Some(finished),
    })
}

/// A frame does not fit for one entry of one slice that it adds to.
fn one_slice_short(needs: &Needs) -> impl Iterator<Item = Trial> {
    (1..=FRAMES).flat_map(|frame| {
        let (before, need) = (&needs[frame - 1], &needs[frame]);
        let growing = (0..SLICES).filter(|&slice| need[slice] > before[slice]);
        growing.map(move |slice| Trial {
            asked: FRAMES,
            room: with_entries(need, slice, need[slice] - 1),
            finished: Some(frame - 1),
        })
    })
}

/// The copy does not fit for one entry of one slice, though all frames fit into the others. With
/// no frame asked it is refused too.
fn copy_does_not_fit(needs: &Needs) -> impl Iterator<Item = Trial> {
    let (copy, all) = (&needs[0], &needs[FRAMES]);
    let filled = (0..SLICES).filter(|&slice| copy[slice] > 0);
    filled.flat_map(|slice| {
        [0, FRAMES].map(|asked| Trial {
            asked,
            room: with_entries(all, slice, copy[slice] - 1),
            finished: None,
        })
    })
}

fn with_entries(room: &Entries, slice: usize, entries: usize) -> Entries {
    let mut room = *room;
    room[slice] = entries;
    room
}

fn case(rng: &mut Rng, graph: &Lent, trial: &Trial) -> Case {
    let room = garbage_room(rng, &trial.room);
    let marks = wellformed::buffer(rng, graph.counted(ROWS));
    let case = case_to(graph, trial.asked as u64, &room, marks);
    assert!(case.fits(), "a case is too large");
    case
}

/// So many entries, and at times a part of one more, which is none.
fn garbage_room(rng: &mut Rng, entries: &Entries) -> Lent {
    let words = std::array::from_fn(|slice| {
        let words = entries[slice] * WIDTH[slice] + rng.below(WIDTH[slice]);
        (0..words).map(|_| garbage(rng)).collect()
    });
    let counts = [0; SLICES];
    Lent { words, counts }
}

/// What is expected of the case has to be what its room is made to show: else it tests nothing.
fn hold(case: &Case, trial: &Trial, needs: &Needs) {
    let outcome = (calls::of(case).expected)(case);
    let answer = match trial.finished {
        Some(finished) if finished == trial.asked => Answer::DONE,
        _ => Answer::NO_ROOM,
    };
    assert_eq!(outcome.answer, answer, "{trial:?}");
    assert_eq!(outcome.results, results(trial, needs), "{trial:?}");
    if trial.finished.is_none() {
        let (after, before) = (&outcome.slots[..SLICES], &case.slots[..SLICES]);
        assert_eq!(after, before, "{trial:?}");
    }
}

/// The finished frames, and the counts of the copy with them.
fn results(trial: &Trial, needs: &Needs) -> Vec<u64> {
    let (finished, counts) = match trial.finished {
        Some(finished) => (finished, needs[finished]),
        None => (0, [0; SLICES]),
    };
    let results = std::iter::once(finished).chain(counts);
    results.map(|result| result as u64).collect()
}

#[cfg(test)]
mod tests {
    use super::*;
    use crate::case::Outcome;
    use crate::graph::{EDGES, ENDS, INPUTS, LATCHES, LEAF, NONE, OUTPUTS};
    use std::collections::{HashMap, HashSet};

    /// "M13 latch 1 with next 3: one unroll makes next 2, no row."
    fn m13() -> Lent {
        let mut graph = Lent::new();
        graph.words[ROWS].extend(LEAF);
        graph.words[LATCHES] = vec![1, 3, NONE];
        graph.count_all();
        graph
    }

    /// Input 1, latch 2, gate 3 = (2,4), which is the next of 2 and the output; justice {5}.
    fn growing() -> Lent {
        let mut graph = Lent::new();
        graph.words[ROWS].extend([LEAF, LEAF, [2, 4]].as_flattened());
        graph.words[INPUTS] = vec![1];
        graph.words[LATCHES] = vec![2, 6, 4];
        graph.words[OUTPUTS] = vec![6];
        graph.words[ENDS] = vec![1];
        graph.words[EDGES] = vec![5];
        graph.count_all();
        graph
    }

    /// Latches 1, 2, 3 with next 2, 3, true, and the gate 4 = (2,4). The first frame makes it
    /// (4,6), the second (6,1), which folds, as all do from there on.
    fn growing_once() -> Lent {
        let mut graph = Lent::new();
        graph.words[ROWS].extend([LEAF, LEAF, LEAF, [2, 4]].as_flattened());
        graph.words[LATCHES] = vec![1, 4, NONE, 2, 6, 0, 3, 1, 1];
        graph.count_all();
        graph
    }

    /// The frames asked, the answer and the finished frames of each case.
    fn told(cases: &[Case]) -> Vec<[u64; 3]> {
        let told = |case: &Case| {
            let Outcome {
                answer, results, ..
            } = outcome(case);
            [case.scalar(SLICES), answer.number, results[0]]
        };
        cases.iter().map(told).collect()
    }

    fn outcome(case: &Case) -> Outcome {
        (calls::of(case).expected)(case)
    }

    /// Entries lent for the copy.
    fn lent(case: &Case) -> Entries {
        let room = Lent::of_case(case, 0, 0);
        std::array::from_fn(|slice| room.room(slice))
    }

    const ALL_FIT: [[u64; 3]; 6] = [
        [0, 0, 0],
        [1, 0, 1],
        [2, 0, 2],
        [3, 0, 3],
        [4, 0, 4],
        [5, 0, 5],
    ];
    const NO_COPY: [[u64; 3]; 2] = [[0, 5, 0], [5, 5, 0]];

    /// No frame is short of room where none adds an entry.
    #[test]
    fn m13_by_hand() {
        let cases = cases_of(&mut Rng::new(1), &m13());
        assert_eq!(told(&cases), [&ALL_FIT[..], &NO_COPY, &NO_COPY].concat());
        for (case, next) in cases.iter().zip([3, 2, 3, 2, 3, 2]) {
            assert_eq!(lent(case), [2, 0, 1, 0, 0, 0, 0, 0, 0]);
            let latches = &outcome(case).slots[LATCHES].words;
            assert_eq!(latches[..3], [1, next, NONE]);
        }
        let rooms = [6, 7, 8, 9].map(|at| [ROWS, LATCHES].map(|slice| lent(&cases[at])[slice]));
        assert_eq!(rooms, [[1, 1], [1, 1], [2, 0], [2, 0]]);
    }

    #[test]
    fn a_graph_that_grows_by_hand() {
        let cases = cases_of(&mut Rng::new(1), &growing());
        let need = |j: usize| [4 + 2 * j, 1 + j, 1, 0, 0, 1 + j, 1 + j, 1 + j, 0];
        let mut rooms: Vec<Entries> = (0..=5).chain(0..5).map(need).collect();
        let mut numbers = ALL_FIT.to_vec();
        numbers.extend((0..5).map(|finished| [5, 5, finished]));
        for frame in 1..=5 {
            for slice in [ROWS, INPUTS, OUTPUTS, ENDS, EDGES] {
                let mut room = need(frame);
                room[slice] -= 1;
                rooms.push(room);
                numbers.push([5, 5, frame as u64 - 1]);
            }
        }
        for slice in [ROWS, INPUTS, LATCHES, OUTPUTS, ENDS, EDGES] {
            let mut room = need(5);
            room[slice] = if slice == ROWS { 3 } else { 0 };
            rooms.extend([room, room]);
            numbers.extend(NO_COPY);
        }
        assert_eq!(cases.iter().map(lent).collect::<Vec<_>>(), rooms);
        assert_eq!(told(&cases), numbers);
        // two frames: rows 4 and 6 are copies of the input, 5 and 7 of the gate
        let slots = outcome(&cases[2]).slots;
        let rows = [NONE, 0, 6, 8, NONE, 0, 10, 12];
        assert_eq!(slots[ROWS].words[8..16], rows);
        assert_eq!(slots[INPUTS].words, [1, 4, 6]);
        assert_eq!(slots[LATCHES].words[..3], [2, 14, 4]);
        assert_eq!(slots[OUTPUTS].words, [6, 10, 14]);
        assert_eq!(slots[ENDS].words, [1, 2, 3]);
        assert_eq!(slots[EDGES].words, [5, 7, 11]);
    }

    /// Only the first frame is ever short of room: exactly that of the copy, twice.
    #[test]
    fn a_graph_that_grows_once_by_hand() {
        let cases = cases_of(&mut Rng::new(1), &growing_once());
        let first = [[5, 5, 0]; 2];
        assert_eq!(
            told(&cases),
            [&ALL_FIT[..], &first, &NO_COPY, &NO_COPY].concat()
        );
        let rows: Vec<usize> = cases.iter().map(|case| lent(case)[ROWS]).collect();
        assert_eq!(rows, [5, 6, 6, 6, 6, 6, 5, 5, 4, 4, 6, 6]);
    }

    /// The room of M13 is that of every number of frames.
    #[test]
    #[should_panic(expected = "finished: Some(3)")]
    fn a_room_that_shows_nothing_is_noticed() {
        let needs = needs(&m13());
        let trial = Trial {
            asked: FRAMES,
            room: needs[3],
            finished: Some(3),
        };
        let case = case(&mut Rng::new(1), &m13(), &trial);
        hold(&case, &trial, &needs);
    }

    /// What is in a graph, and what its frames add.
    fn kinds(graph: &Lent, needs: &Needs) -> HashSet<String> {
        let mut kinds = HashSet::new();
        for [_, _, init] in graph.latches() {
            let kind = match init {
                NONE => "no init",
                0 | 1 => "a constant init",
                _ => "an edge as init",
            };
            kinds.insert(kind.into());
        }
        if !graph.orphans().is_empty() {
            kinds.insert("an orphan".into());
        }
        let rows = [0, 1, 2, 3, 4].map(|frame| needs[frame + 1][ROWS] - needs[frame][ROWS]);
        if rows[0] < graph.counted(ROWS) - 1 - graph.counted(LATCHES) {
            kinds.insert("a gate that folds".into());
        }
        if rows.iter().any(|&more| more != rows[0]) {
            kinds.insert("a later frame adds other rows".into());
        }
        if needs[FRAMES] == needs[0] {
            kinds.insert("no frame adds an entry".into());
        }
        kinds
    }

    /// Which slice is short, of the copy or of which frame?
    fn kind_of_room(trial: &Trial, needs: &Needs) -> Option<String> {
        let (frame, need) = match trial.finished {
            None => (0, &needs[0]),
            Some(finished) => (finished + 1, needs.get(finished + 1)?),
        };
        let is_short = |&slice: &usize| trial.room[slice] < need[slice];
        let short: Vec<usize> = (0..SLICES).filter(is_short).collect();
        match short[..] {
            [slice] => Some(format!("frame {frame}: {slice} alone short")),
            _ => None,
        }
    }

    #[test]
    fn random_graphs_reach_every_kind() {
        let mut reached: HashMap<String, usize> = HashMap::new();
        for number in 0..1_000 {
            let graph = small_graph(&mut Rng::of(&[1, number]));
            let needs = needs(&graph);
            let rooms = trials(&needs);
            let rooms = rooms.iter().filter_map(|trial| kind_of_room(trial, &needs));
            let rooms: HashSet<String> = rooms.collect();
            for kind in kinds(&graph, &needs).into_iter().chain(rooms) {
                *reached.entry(kind).or_insert(0) += 1;
            }
        }
        let at_least = |kind: &str, count: usize| {
            let found = reached.get(kind).copied().unwrap_or(0);
            assert!(found >= count, "{kind}: {found}");
        };
        for kind in ["no init", "a constant init", "an edge as init", "an orphan"] {
            at_least(kind, 300);
        }
        at_least("a gate that folds", 300);
        at_least("a later frame adds other rows", 100);
        at_least("no frame adds an entry", 5);
        for slice in 0..SLICES {
            at_least(&format!("frame 0: {slice} alone short"), 200);
            for frame in (1..=FRAMES).filter(|_| slice != LATCHES) {
                at_least(&format!("frame {frame}: {slice} alone short"), 200);
            }
        }
    }

    /// Their rooms show what they are made for: else it panics.
    #[test]
    fn random_cases_are_held() {
        for number in 0..200 {
            let cases = cases(2, number);
            assert!(cases.len() >= 8, "graph {number}");
            assert!(cases.iter().all(Case::fits), "graph {number}");
        }
    }
}
