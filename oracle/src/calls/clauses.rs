//! Call 100: the clauses of a graph.

use super::{Call, Count, MARKS, OUTPUT, clear, given_otherwise, graph_counts, shorten};
use crate::case::{Answer, Case, Outcome};
use crate::graph::{Lent, ROWS, SLICES, code, to_aig};
use crate::patterns;
use crate::refuse::{is_sound, refusal};
use crate::rng::Rng;
use crate::shapes;
use crate::tables;
use crate::wellformed::{FULL, garbage};
use aig::AigEdge;
use logicrs::Var;

pub const CNF: u64 = 100;
/// The scalar after the counts.
const SHORTCUTS: usize = SLICES;

pub const CALLS: &[Call] = &[Call {
    number: CNF,
    name: "cnf::cnf",
    random,
    expected,
    counts: &COUNTS,
    ids: &[],
    id_slots: &[],
    edges: &[],
    edge_slots: &[],
}];

const COUNTS: [Count; SLICES] = graph_counts(0, 0);

/// The most words that the program has room for.
const MOST_WORDS: usize = 65_600;

/// The graph, the clause words and the marks, every slice given.
pub fn case(graph: &Lent, shortcuts: u64, output: Vec<u32>, marks: Vec<u32>) -> Case {
    let mut case = Case::new(CNF, &graph.counts);
    case.scalars.push(shortcuts);
    case.slots.extend(graph.slots(0));
    case.lend(OUTPUT, output).lend(MARKS, marks)
}

fn random(rng: &mut Rng, _: u64) -> Case {
    let (graph, marks) = if rng.one_in(4) {
        shapes::marked(rng)
    } else {
        patterns::marked(rng)
    };
    // "a truth value is true unless the scalar is 0"
    let shortcuts = rng.pick(&[0, 0, 0, 0, 0, 1, 1, 1, 1, 1, 2, 1 << 32, u64::MAX]);
    let need = match is_sound(&graph) {
        true => words(&graph, shortcuts != 0).len(),
        false => rng.below(20),
    };
    let length = output_length(rng, need);
    let output = (0..length).map(|_| garbage(rng)).collect();
    let used = graph.counted(ROWS);
    let mut case = case(&graph, shortcuts, output, marks);
    if rng.one_in(16) {
        shorten(rng, &mut case, MARKS, used);
    }
    let case = given_otherwise(rng, case);
    tables::with_another_slot(rng, case)
}

/// Exactly full, one short, larger, empty or anything; rarely longer than a list may be.
fn output_length(rng: &mut Rng, need: usize) -> usize {
    let length = match rng.below(240) {
        0 if need < 1_000 => rng.between(FULL + 1, MOST_WORDS),
        0..100 => need,
        100..140 => need.saturating_sub(1),
        140..180 => need + rng.between(1, 9),
        180..200 => 0,
        200..220 => rng.below(need + 1),
        // the unit clause alone, or a clause more
        _ => rng.between(1, 12),
    };
    length.min(MOST_WORDS)
}

fn expected(case: &Case) -> Outcome {
    let graph = Lent::of_case(case, 0, 0);
    let (answer, words) = match written(case, &graph) {
        Ok(words) => (Answer::DONE, words),
        Err(answer) => (answer, Vec::new()),
    };
    let mut outcome = Outcome::reading(case, answer, &[words.len() as u64]);
    if answer != Answer::BAD_SIZES {
        clear(&mut outcome, &[MARKS], graph.counted(ROWS));
    }
    outcome.write(OUTPUT, &words);
    outcome
}

/// "clause words still free are fewer than the call needs": 5.
fn written(case: &Case, graph: &Lent) -> Result<Vec<u32>, Answer> {
    if let Some(answer) = refusal(graph, case.slot(MARKS)) {
        return Err(answer);
    }
    let words = words(graph, case.truth(SHORTCUTS));
    match words.len() <= case.slot(OUTPUT).len() {
        true => Ok(words),
        false => Err(Answer::NO_ROOM),
    }
}

/// "First comes the unit clause [1, 1]; `src/cnf.rs` doesn't add it". Then the clauses of each
/// variable as the crate has them, "From the last row down".
pub fn words(graph: &Lent, shortcuts: bool) -> Vec<u32> {
    let cnf = to_aig(graph).cnf(shortcuts);
    let mut words = vec![1, 1];
    for id in (1..graph.counted(ROWS)).rev() {
        for clause in cnf.clauses(Var::new(id)) {
            // "A clause is a length word and literals; literal codes are edge codes."
            words.push(clause.len() as u32);
            let literals = clause.iter().map(|&lit| code(AigEdge::from_lit(lit)));
            words.extend(literals);
        }
    }
    words
}

/// The clauses that words hold; none where they end inside a clause.
pub fn split(mut words: &[u32]) -> Option<Vec<&[u32]>> {
    let mut clauses = Vec::new();
    while let [length, rest @ ..] = words {
        let (clause, rest) = rest.split_at_checked(*length as usize)?;
        clauses.push(clause);
        words = rest;
    }
    Some(clauses)
}

#[cfg(test)]
mod tests {
    use super::*;
    use crate::exhaust;
    use crate::graph::{
        BADS, CONSTRAINTS, EDGES, ENDS, FAIRNESS, INPUTS, Kind, LATCHES, LEAF, NONE, OUTPUTS,
    };
    use std::collections::{BTreeMap, BTreeSet, HashMap, HashSet};

    /// What a gate is written as.
    #[derive(Debug, Clone, Copy, PartialEq, Eq)]
    enum Shape {
        Plain(u32, u32),
        Xor(u32, u32),
        /// The pairing, from 0, then condition, then and else.
        Ite(usize, [u32; 3]),
    }

    fn not(edge: u32) -> u32 {
        edge ^ 1
    }

    fn gate(graph: &Lent, edge: u32) -> Option<[u32; 2]> {
        match graph.kind(edge as usize / 2) {
            Some(Kind::Gate(a, b)) => Some([a, b]),
            _ => None,
        }
    }

    /// The fanins of both fanins, where "both fanins [are] complemented gates".
    fn inner(graph: &Lent, [a, b]: [u32; 2]) -> Option<[[u32; 2]; 2]> {
        let complemented = a % 2 == 1 && b % 2 == 1;
        match (gate(graph, a), gate(graph, b)) {
            (Some(first), Some(second)) if complemented => Some([first, second]),
            _ => None,
        }
    }

    /// "the four pairings in the order of `is_ite`", of those that match the first: its number, and
    /// condition, then and else.
    fn pairing([[a, b], [c, d]]: [[u32; 2]; 2]) -> Option<(usize, [u32; 3])> {
        let pairings = [(a, c, b, d), (a, d, b, c), (b, c, a, d), (b, d, a, c)];
        let mut pairings = pairings.into_iter().enumerate();
        let (number, (condition, _, then, otherwise)) =
            pairings.find(|(_, (one, other, ..))| *one == not(*other))?;
        Some((number, [condition, not(then), not(otherwise)]))
    }

    fn are_distinct([c, t, e]: [u32; 3]) -> bool {
        c / 2 != t / 2 && c / 2 != e / 2 && t / 2 != e / 2
    }

    /// "With shortcuts on, xor is tried first, then if-then-else, then plain."
    fn shape(graph: &Lent, row: [u32; 2], shortcuts: bool) -> Shape {
        let plain = Shape::Plain(row[0], row[1]);
        let Some([[a, b], [c, d]]) = inner(graph, row).filter(|_| shortcuts) else {
            return plain;
        };
        // "the first's two fanins are the complements of the second's, place by place; ids differ"
        if a == not(c) && b == not(d) && a / 2 != b / 2 {
            return Shape::Xor(a, b);
        }
        // "any two of the three ids equal: not recognised"
        match pairing([[a, b], [c, d]]) {
            Some((number, operands)) if are_distinct(operands) => Shape::Ite(number, operands),
            _ => plain,
        }
    }

    impl Shape {
        fn operands(self) -> Vec<u32> {
            match self {
                Shape::Plain(a, b) | Shape::Xor(a, b) => vec![a, b],
                Shape::Ite(_, operands) => operands.to_vec(),
            }
        }

        fn clauses(self, g: u32) -> Sets {
            match self {
                // "(¬g a b) (¬g ¬a ¬b) (g ¬a b) (g a ¬b)"
                Shape::Xor(a, b) => sets(&[
                    &[not(g), a, b],
                    &[not(g), not(a), not(b)],
                    &[g, not(a), b],
                    &[g, a, not(b)],
                ]),
                // "(¬g ¬c t) (¬g c e) (g ¬c ¬t) (g c ¬e)"
                Shape::Ite(_, [c, t, e]) => sets(&[
                    &[not(g), not(c), t],
                    &[not(g), c, e],
                    &[g, not(c), not(t)],
                    &[g, c, not(e)],
                ]),
                // "(¬g a) (¬g b) (g ¬a ¬b)"
                Shape::Plain(a, b) => sets(&[&[not(g), a], &[not(g), b], &[g, not(a), not(b)]]),
            }
        }
    }

    type Sets = BTreeSet<BTreeSet<u32>>;

    fn sets(clauses: &[&[u32]]) -> Sets {
        let clauses = clauses.iter();
        clauses.map(|c| c.iter().copied().collect()).collect()
    }

    /// "Roots are every latch's next and init and the five root lists."
    fn roots(graph: &Lent) -> Vec<u32> {
        let lists = [CONSTRAINTS, BADS, OUTPUTS, EDGES, FAIRNESS].into_iter();
        let mut roots: Vec<u32> = lists.flat_map(|list| graph.list(list).to_vec()).collect();
        for [_, next, init] in graph.latches() {
            roots.push(next);
            roots.extend((init != NONE).then_some(init));
        }
        roots
    }

    /// "From the last row down, each referenced gate g is written, and its operands become
    /// referenced."
    fn shapes(graph: &Lent, shortcuts: bool) -> Vec<(u32, Shape)> {
        let mut referenced: HashSet<u32> = roots(graph).iter().map(|root| root / 2).collect();
        let mut shapes = Vec::new();
        for id in (0..graph.counted(ROWS) as u32).rev() {
            if let (Some(row), true) = (gate(graph, 2 * id), referenced.contains(&id)) {
                let shape = shape(graph, row, shortcuts);
                referenced.extend(shape.operands().iter().map(|edge| edge / 2));
                shapes.push((id, shape));
            }
        }
        shapes
    }

    /// Holds the words to document 01: "compared per variable as sets of literal sets, the unit
    /// apart". The operands of a gate are below it, so a clause is of its largest variable.
    #[track_caller]
    fn hold(graph: &Lent, shortcuts: bool) -> usize {
        let words = words(graph, shortcuts);
        let clauses = split(&words).expect("the last clause is whole");
        assert_eq!(clauses[0], [1]);
        let variable = |clause: &&[u32]| clause.iter().map(|literal| literal / 2).max();
        assert!(clauses[1..].is_sorted_by(|a, b| variable(a) >= variable(b)));
        let mut of_variables: BTreeMap<u32, Vec<&[u32]>> = BTreeMap::new();
        for clause in &clauses[1..] {
            let variable = variable(clause).expect("no clause is empty");
            of_variables.entry(variable).or_default().push(clause);
        }
        let crate_has = of_variables.into_iter().map(|(id, c)| (id, sets(&c)));
        let document = shapes(graph, shortcuts);
        let gates = document.len();
        let document = document.into_iter().map(|(id, s)| (id, s.clauses(2 * id)));
        let [crate_has, document]: [BTreeMap<u32, Sets>; 2] =
            [crate_has.collect(), document.collect()];
        assert_eq!(crate_has, document, "{graph:?}");
        // "So at most 2 + 16·gates words."
        assert!(words.len() <= 2 + 16 * gates);
        gates
    }

    #[test]
    fn the_crate_and_document_01_agree_on_random_cases() {
        let mut held = 0;
        for seed in 0..6_000 {
            let case = random(&mut Rng::new(seed), CNF);
            let graph = Lent::of_case(&case, 0, 0);
            if is_sound(&graph) {
                held += 1;
                hold(&graph, false);
                hold(&graph, true);
            }
        }
        assert!(held > 3_000, "{held}");
    }

    #[test]
    fn the_crate_and_document_01_agree_on_small_graphs() {
        for graph in exhaust::graphs(5) {
            hold(&graph, false);
            hold(&graph, true);
        }
    }

    /// Why a gate is plain where shortcuts are on, or what it is over.
    fn kind(graph: &Lent, row: [u32; 2]) -> String {
        let over = |operands: &[u32]| {
            let at = operands.iter().position(|edge| edge / 2 == 0);
            at.map_or("rows".into(), |at| format!("row 0 at {at}"))
        };
        match shape(graph, row, true) {
            Shape::Xor(a, b) => return format!("xor of {}", over(&[a, b])),
            Shape::Ite(number, operands) => return format!("ite {number} of {}", over(&operands)),
            Shape::Plain(..) => {}
        }
        let gates = row.map(|edge| gate(graph, edge));
        let Some(inner) = inner(graph, row) else {
            return match (gates, row) {
                ([Some(_), Some(_)], [a, b]) => format!("complements {} {}", a % 2, b % 2),
                _ => "no gate".into(),
            };
        };
        if row[0] == row[1] {
            let [[a, b], _] = inner;
            return format!("one gate twice, complements {}", a == not(b));
        }
        match pairing(inner) {
            Some((_, [c, t, e])) => {
                let same = [c / 2 == t / 2, c / 2 == e / 2, t / 2 == e / 2];
                format!("ids equal {same:?}")
            }
            None => "no pairing".into(),
        }
    }

    /// Of the cases: how many have each answer, and how many are of some kind.
    fn reached(seeds: u64) -> HashMap<String, usize> {
        let mut reached = HashMap::new();
        for seed in 0..seeds {
            let case = random(&mut Rng::new(seed), CNF);
            assert!(case.fits(), "seed {seed}");
            let outcome = expected(&case);
            let graph = Lent::of_case(&case, 0, 0);
            let mut kinds = HashSet::from([format!("answer {}", outcome.answer.number)]);
            if case.slot(MARKS).len() < graph.counted(ROWS) {
                kinds.insert("short marks".into());
            }
            if is_sound(&graph) && outcome.answer != Answer::BAD_SIZES {
                kinds.extend(kinds_of_sound(&case, &graph));
            }
            for kind in kinds {
                *reached.entry(kind).or_insert(0) += 1;
            }
        }
        reached
    }

    fn kinds_of_sound(case: &Case, graph: &Lent) -> Vec<String> {
        let shortcuts = case.truth(SHORTCUTS);
        let need = words(graph, shortcuts).len();
        let room = match case.slot(OUTPUT).len() {
            0 => "none",
            room if room + 1 == need => "one short",
            room if room < need => "short",
            room if room == need => "exact",
            room if room > FULL => "long",
            _ => "larger",
        };
        let mut kinds = vec![format!("room {room}, shortcuts {shortcuts}")];
        let written = shapes(graph, shortcuts);
        if shortcuts && room == "exact" {
            let row = |id: u32| graph.row(id as usize);
            kinds.extend(written.iter().map(|&(id, _)| kind(graph, row(id))));
        }
        if room == "exact" {
            let rows = 0..graph.counted(ROWS) as u32;
            let gates = rows.filter(|&id| gate(graph, 2 * id).is_some()).count();
            let all = if gates == written.len() {
                "all"
            } else {
                "some"
            };
            kinds.push(format!("{all} gates written"));
            if need > 5_000 {
                kinds.push("large".into());
            }
            if graph.counted(ROWS) < 100 {
                kinds.extend(root_kinds(graph));
            }
        }
        kinds
    }

    /// The lists without which a gate would not be written, and the kinds of init.
    fn root_kinds(graph: &Lent) -> Vec<String> {
        let mut kinds = Vec::new();
        let whole = shapes(graph, false).len();
        for list in [LATCHES, CONSTRAINTS, BADS, OUTPUTS, EDGES, FAIRNESS] {
            let mut without = graph.clone();
            without.counts[list] = 0;
            if shapes(&without, false).len() < whole {
                kinds.push(format!("list {list} needed"));
            }
        }
        let latches = graph.latches();
        for (at, [input, _, init]) in latches.enumerate() {
            let mut without = graph.clone();
            without.words[LATCHES][3 * at + 2] = NONE;
            kinds.push(match init {
                NONE => "init none".into(),
                0 | 1 => "init constant".into(),
                init if init / 2 == input => "init its own row".into(),
                _ if shapes(&without, false).len() < whole => "init needed".into(),
                _ => "init of another row".into(),
            });
        }
        kinds
    }

    #[test]
    fn random_cases_reach_every_kind() {
        let reached = reached(6_000);
        let at_least = |kind: &str, count: usize| {
            let found = reached.get(kind).copied().unwrap_or(0);
            assert!(found >= count, "{kind}: {found}");
        };
        for (answer, count) in [(0, 2_000), (1, 200), (2, 100), (3, 100), (5, 1_000)] {
            at_least(&format!("answer {answer}"), count);
        }
        at_least("short marks", 50);
        for shortcuts in [false, true] {
            for (room, count) in [("none", 50), ("one short", 100), ("short", 100)] {
                at_least(&format!("room {room}, shortcuts {shortcuts}"), count);
            }
            for (room, count) in [("exact", 500), ("larger", 100), ("long", 1)] {
                at_least(&format!("room {room}, shortcuts {shortcuts}"), count);
            }
        }
        at_least("xor of rows", 100);
        at_least("xor of row 0 at 0", 10);
        at_least("xor of row 0 at 1", 10);
        for number in 0..4 {
            at_least(&format!("ite {number} of rows"), 20);
            for at in 0..3 {
                at_least(&format!("ite {number} of row 0 at {at}"), 5);
            }
        }
        for complements in ["0 0", "0 1", "1 0"] {
            at_least(&format!("complements {complements}"), 20);
        }
        for complements in [false, true] {
            at_least(&format!("one gate twice, complements {complements}"), 5);
        }
        at_least("no gate", 100);
        at_least("no pairing", 50);
        let same = |same: [bool; 3]| format!("ids equal {same:?}");
        at_least(&same([false, false, true]), 50);
        at_least(&same([true, false, false]), 10);
        at_least(&same([false, true, false]), 10);
        at_least(&same([true, true, true]), 20);
        for list in [LATCHES, CONSTRAINTS, BADS, OUTPUTS, EDGES, FAIRNESS] {
            at_least(&format!("list {list} needed"), 50);
        }
        for init in [
            "none",
            "constant",
            "its own row",
            "needed",
            "of another row",
        ] {
            at_least(&format!("init {init}"), 100);
        }
        at_least("all gates written", 100);
        at_least("some gates written", 500);
        at_least("large", 4);
    }

    /// Row 0 and the rows given, with no lists.
    fn rows(rows: &[[u32; 2]]) -> Lent {
        let mut graph = Lent::new();
        graph.words[ROWS].extend(rows.as_flattened());
        graph.count_all();
        graph
    }

    fn with(mut graph: Lent, list: usize, entries: &[u32]) -> Lent {
        graph.words[list] = entries.to_vec();
        graph.count_all();
        graph
    }

    fn table_x() -> Lent {
        let graph = rows(&[LEAF, LEAF, [2, 4], [3, 5], [7, 9]]);
        with(with(graph, INPUTS, &[1, 2]), OUTPUTS, &[10])
    }

    const XOR: [u32; 18] = [1, 1, 3, 11, 2, 4, 3, 11, 3, 5, 3, 10, 3, 4, 3, 10, 2, 5];
    const PLAIN: [u32; 32] = [
        1, 1, 2, 11, 7, 2, 11, 9, 3, 10, 6, 8, 2, 9, 3, 2, 9, 5, 3, 8, 2, 4, 2, 7, 2, 2, 7, 4, 3,
        6, 3, 5,
    ];

    fn after(outcome: &Outcome, slot: usize) -> &[u32] {
        let slot = outcome.slots.iter().find(|s| s.number == slot);
        slot.map_or(&[], |slot| &slot.words)
    }

    /// The words, in a buffer that they fill and in one that is longer by two.
    #[track_caller]
    fn writes(graph: &Lent, shortcuts: bool, words: &[u32]) {
        let used = graph.counted(ROWS);
        for spare in [0, 2] {
            let room = vec![77; words.len() + spare];
            let case = case(graph, shortcuts.into(), room, vec![9; used + 1]);
            let outcome = expected(&case);
            assert_eq!(outcome.answer, Answer::DONE);
            assert_eq!(outcome.results, [words.len() as u64]);
            assert_eq!(
                after(&outcome, OUTPUT),
                [words, &vec![77; spare][..]].concat()
            );
            assert_eq!(after(&outcome, MARKS), [&vec![0; used][..], &[9]].concat());
            assert_eq!(outcome.slots[..SLICES], case.slots[..SLICES]);
        }
    }

    #[test]
    fn marked_cases_word_by_word() {
        writes(&table_x(), true, &XOR);
        writes(&table_x(), false, &PLAIN);
        let m10 = rows(&[LEAF, LEAF, LEAF, [2, 5], [3, 7], [9, 11]]);
        let m10 = with(with(m10, INPUTS, &[1, 2, 3]), OUTPUTS, &[12]);
        let ite = [1, 1, 3, 13, 3, 4, 3, 13, 2, 6, 3, 12, 3, 5, 3, 12, 2, 7];
        writes(&m10, true, &ite);
        writes(&Lent::new(), true, &[1, 1]);
        writes(&Lent::new(), false, &[1, 1]);
    }

    /// Two gates, of which the second is written if a root names it, and the first with it.
    #[test]
    fn roots_by_hand() {
        let gates = rows(&[LEAF, LEAF, [2, 2], [3, 5]]);
        let first = [2, 7, 2, 2, 7, 2, 3, 6, 3, 3];
        let second = [2, 9, 3, 2, 9, 5, 3, 8, 2, 4];
        let unit = [1, 1];
        for shortcuts in [false, true] {
            let holds = |graph: Lent, parts: &[&[u32]]| writes(&graph, shortcuts, &parts.concat());
            for list in [CONSTRAINTS, BADS, OUTPUTS, FAIRNESS] {
                holds(with(gates.clone(), list, &[6]), &[&unit, &first]);
                holds(with(gates.clone(), list, &[9]), &[&unit, &second]);
                holds(
                    with(gates.clone(), list, &[9, 7]),
                    &[&unit, &second, &first],
                );
                holds(with(gates.clone(), list, &[0, 2]), &[&unit]);
            }
            let justice = with(gates.clone(), EDGES, &[7]);
            holds(with(justice, ENDS, &[0, 1]), &[&unit, &first]);
            let latch = |next, init| with(gates.clone(), LATCHES, &[1, next, init]);
            holds(latch(8, NONE), &[&unit, &second]);
            holds(latch(1, 7), &[&unit, &first]);
            holds(latch(7, 8), &[&unit, &second, &first]);
            holds(latch(2, 0), &[&unit]);
            // a list beyond its count, and an input
            let mut beyond = with(gates.clone(), OUTPUTS, &[8]);
            beyond.counts[OUTPUTS] = 0;
            holds(with(gates.clone(), INPUTS, &[1]), &[&unit]);
            writes(&beyond, shortcuts, &unit);
        }
    }

    /// The inner gates of a shortcut are written where something else references them.
    #[test]
    fn shortcuts_by_hand() {
        let x = table_x();
        let also = with(x.clone(), BADS, &[7]);
        writes(&also, true, &[&XOR[..], &PLAIN[22..]].concat());
        // the top over the first gate, which is then referenced
        let above = rows(&[LEAF, LEAF, [2, 4], [3, 5], [7, 9], [6, 10]]);
        let above = with(above, OUTPUTS, &[12]);
        let top = [2, 13, 6, 2, 13, 10, 3, 12, 7, 11];
        let words = [&XOR[..2], &top, &XOR[2..], &PLAIN[22..]].concat();
        writes(&above, true, &words);
        // (¬m,¬m) with m = (x,¬x)
        let twice = with(rows(&[LEAF, [2, 3], [5, 5]]), OUTPUTS, &[6]);
        let plain = [
            1, 1, 2, 7, 5, 2, 7, 5, 3, 6, 4, 4, 2, 5, 2, 2, 5, 3, 3, 4, 3, 2,
        ];
        writes(&twice, true, &plain);
        writes(&twice, false, &plain);
        // over row 0: the unit clause says what it is
        let over = with(rows(&[LEAF, [0, 2], [1, 3], [5, 7]]), OUTPUTS, &[9]);
        let xor = [1, 1, 3, 9, 0, 2, 3, 9, 1, 3, 3, 8, 1, 2, 3, 8, 0, 3];
        writes(&over, true, &xor);
    }

    #[track_caller]
    fn refused(case: &Case, answer: Answer) {
        let used = Lent::of_case(case, 0, 0).counted(ROWS);
        let mut left = case.slots.clone();
        if answer != Answer::BAD_SIZES {
            left[SLICES + 1].words[..used].fill(0);
        }
        let outcome = expected(case);
        assert_eq!((outcome.answer, outcome.slots), (answer, left));
        assert_eq!(outcome.results, [0]);
    }

    #[test]
    fn refusals_in_their_order() {
        for (shortcuts, need) in [(0, 32), (1, 18)] {
            for room in [0, 1, 2, need - 1, need] {
                let with = |change: fn(&mut Lent)| {
                    let mut graph = table_x();
                    change(&mut graph);
                    case(&graph, shortcuts, vec![77; room], vec![9; 7])
                };
                if room < need {
                    refused(&with(|_| {}), Answer::NO_ROOM);
                }
                // 1, 2 and 3 before 5
                refused(&with(|g| g.counts[ROWS] = 0), Answer::BAD_SIZES);
                refused(&with(|g| g.counts[FAIRNESS] = 1), Answer::BAD_SIZES);
                refused(&with(|g| g.words[ROWS][10] = 10), Answer::bad_row(5));
                let at = Answer::bad_entry(5, 0, 0);
                refused(&with(|g| g.words[OUTPUTS][0] = 12), at);
                let marks = case(&table_x(), shortcuts, vec![77; room], vec![9; 5]);
                refused(&marks, Answer::BAD_SIZES);
            }
            // there is no upper limit
            let long = case(&table_x(), shortcuts, vec![77; FULL + 1], vec![9; 6]);
            assert_eq!(expected(&long).answer, Answer::DONE);
        }
    }
}
