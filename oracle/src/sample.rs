//! The stored sample: a small script with every call, and what is expected of it.

use crate::calls::clauses::{self, CNF};
use crate::calls::cones::{self, COI, LOGIC};
use crate::calls::merge::{self, MERGE};
use crate::calls::property::{self, GATE_INIT};
use crate::calls::reencode;
use crate::calls::refine;
use crate::calls::ternary::{self, Lending, RUN, STEP, VALUE};
use crate::calls::unroll;
use crate::calls::{self, Call, LIST, VALUES, check, making};
use crate::case::{Answer, Case};
use crate::compare::random_case;
use crate::graph::{
    BADS, CONSTRAINTS, EDGES, ENDS, FAIRNESS, INPUTS, LATCHES, LEAF, Lent, NONE, OUTPUTS, ROWS,
    WIDTH,
};
use std::collections::HashMap;
use std::fs;
use std::io;
use std::path::Path;

/// Random cases of each kind: of a call, with a number and, for 3 of the check, a list.
const OF_A_KIND: usize = 4;
/// Of a refusal that the check has too, in the calls on a whole graph after it.
const AS_THE_CHECK: usize = 2;
/// Of the calls whose cases are long.
const OF_A_LONG_CALL: usize = 1;
/// Where the random cases are looked for, and how many words they may have.
const SEED: u64 = 2;
const ROUNDS: u64 = 2_000;
const MOST_WORDS: usize = 90;
const MOST_OF_A_LONG_CALL: usize = 55;

/// The slots of FORMAT.md, for the reader.
const SLOTS: [&str; 25] = [
    "rows",
    "inputs",
    "latches",
    "constraints",
    "bads",
    "outputs",
    "ends",
    "edges",
    "fairness",
    "other.rows",
    "other.inputs",
    "other.latches",
    "other.constraints",
    "other.bads",
    "other.outputs",
    "other.ends",
    "other.edges",
    "other.fairness",
    "list",
    "marks",
    "marks.second",
    "output",
    "bytes.inputs",
    "bytes.state",
    "bytes.values",
];

/// The script and what is expected.
struct Sample {
    stdin: String,
    stdout: String,
}

pub fn write(folder: &Path, calls: &[&Call]) -> io::Result<bool> {
    let sample = sample(calls);
    fs::create_dir_all(folder)?;
    fs::write(folder.join("stdin"), sample.stdin)?;
    fs::write(folder.join("stdout"), sample.stdout)?;
    Ok(true)
}

/// Are the stored files what would be written?
pub fn check(folder: &Path, calls: &[&Call]) -> io::Result<bool> {
    let sample = sample(calls);
    let stored = |name| fs::read_to_string(folder.join(name));
    let same = stored("stdin")? == sample.stdin && stored("stdout")? == sample.stdout;
    let verdict = if same { "is" } else { "is NOT" };
    println!("the stored sample {verdict} what the oracle writes");
    Ok(same)
}

fn sample(calls: &[&Call]) -> Sample {
    let mut sample = Sample {
        stdin: String::new(),
        stdout: String::new(),
    };
    let is_of = |case: &Case| calls.iter().any(|call| call.number == case.call);
    for (title, case) in marked_cases().into_iter().filter(|(_, case)| is_of(case)) {
        sample.push(title, &case);
    }
    for call in calls {
        for case in random_cases(call) {
            sample.push("", &case);
        }
    }
    // "The run ends at CALL 0"
    sample.stdin.push_str("end 0\n");
    sample
}

impl Sample {
    fn push(&mut self, title: &str, case: &Case) {
        let call = calls::of(case);
        if !title.is_empty() {
            self.stdin.push_str(&format!("{title} "));
        }
        self.stdin.push_str(&format!("{} ", call.name));
        case.write_head(&mut self.stdin);
        self.stdin.push('\n');
        for slot in &case.slots {
            self.stdin.push_str(&format!("    {} ", SLOTS[slot.number]));
            slot.write(&mut self.stdin);
            self.stdin.push('\n');
        }
        for line in (call.expected)(case).lines(case.call) {
            self.stdout.push_str(&line);
            self.stdout.push('\n');
        }
    }
}

/// The first small cases of each kind.
fn random_cases(call: &Call) -> Vec<Case> {
    let mut found: HashMap<(u64, u64, bool), usize> = HashMap::new();
    let mut cases = Vec::new();
    for round in 0..ROUNDS {
        let case = random_case(call, SEED, round);
        let kind = kind(call, (call.expected)(&case).answer);
        let found = found.entry(kind).or_default();
        if *found < of_a_kind(call, kind.0) && case.words() <= most_words(call) {
            *found += 1;
            cases.push(case);
        }
    }
    cases
}

fn of_a_kind(call: &Call, number: u64) -> usize {
    match (call.number, number) {
        _ if is_long(call) => OF_A_LONG_CALL,
        (LOGIC | COI | RUN | STEP, 1..=3) => AS_THE_CHECK,
        _ => OF_A_KIND,
    }
}

fn most_words(call: &Call) -> usize {
    match is_long(call) {
        true => MOST_OF_A_LONG_CALL,
        false => MOST_WORDS,
    }
}

/// Those that leave a whole graph, and the clauses.
fn is_long(call: &Call) -> bool {
    matches!(call.number, MERGE..=GATE_INIT | CNF)
}

/// The number; of the check, which stands for every other call on a whole graph, also the list of
/// a bad entry, and whether it is a justice edge.
fn kind(call: &Call, answer: Answer) -> (u64, u64, bool) {
    match (call.number, answer.number) {
        (check::NUMBER, 3) => (3, answer.place, answer.second > 0),
        (_, number) => (number, 0, false),
    }
}

/// What document 01 says in words or as a marked case, where there is a call for it.
fn marked_cases() -> Vec<(&'static str, Case)> {
    let mut cases = edge_cases();
    cases.extend(row_cases());
    cases.extend(well_formed_cases());
    cases.extend(refused_cases());
    cases.extend(new_and_leaf_cases());
    cases.extend(latch_cases());
    cases.extend(gate_cases());
    cases.extend(list_cases());
    cases.extend(cone_cases());
    cases.extend(merge_cases());
    cases.extend(reencode_cases());
    cases.extend(refine_cases());
    cases.extend(unroll_cases());
    cases.extend(unroll_to_cases());
    cases.extend(move_cases());
    cases.extend(compress_cases());
    cases.extend(gate_init_cases());
    cases.extend(ternary_cases());
    cases.extend(value_cases());
    cases.extend(clause_cases());
    cases
}

fn edge_cases() -> Vec<(&'static str, Case)> {
    let map = |edge, map: &[u32]| Case::new(11, &[edge]).lend(LIST, map.to_vec());
    vec![
        ("false", Case::new(6, &[0])),
        ("true", Case::new(6, &[1])),
        ("last-id", Case::new(1, &[2_147_483_647, 1])),
        ("above-the-last-id", Case::new(1, &[2_147_483_648, 1])),
        ("constant", Case::new(10, &[1])),
        ("no-constant", Case::new(10, &[2])),
        ("map-to-the-last-id", map(3, &[0, 2_147_483_647])),
        ("map-above-the-last-id", map(3, &[0, 2_147_483_648])),
        ("map-outside", map(4, &[0, 1])),
    ]
}

/// Every row call of table X: row 0, a leaf, the last gate, and the first row that is not used.
fn row_cases() -> impl Iterator<Item = (&'static str, Case)> {
    let x = table_x();
    let calls = (20..=24).flat_map(|call| [0, 1, 5, 6].map(|id| (call, id)));
    calls.map(move |(call, id)| {
        let rows = x.words[ROWS].clone();
        ("X", Case::new(call, &[x.counts[ROWS], id]).lend(ROWS, rows))
    })
}

/// Marks of garbage, one more than there are rows.
fn checked(graph: &Lent) -> Case {
    check::case(graph, vec![7; graph.room(ROWS) + 1])
}

fn well_formed_cases() -> Vec<(&'static str, Case)> {
    let m7 = table_m7();
    let m12 = table_m12();
    let m13 = table_m13();
    vec![
        ("X", checked(&table_x())),
        ("M7", checked(&m7)),
        ("M10", checked(&table_m10())),
        ("M11", checked(&Lent::new())),
        ("M12", checked(&m12)),
        ("M13", checked(&m13)),
    ]
}

/// Table X with one thing changed, or with two of which the first in order is answered.
fn refused_cases() -> Vec<(&'static str, Case)> {
    let x = table_x();
    let changed = |change: fn(&mut Lent)| {
        let mut graph = x.clone();
        change(&mut graph);
        checked(&graph)
    };
    let short = check::case(&x, vec![7; 5]);
    vec![
        ("no-row-used", changed(|x| x.counts[ROWS] = 0)),
        ("odd-last-word", changed(|x| x.words[ROWS].truncate(11))),
        ("marks-one-short", short),
        ("count-above-its-room", changed(|x| x.counts[FAIRNESS] = 1)),
        ("gate-of-itself", changed(|x| x.words[ROWS][10] = 10)),
        ("leaf-twice", changed(|x| x.words[INPUTS] = vec![1, 1])),
        ("edges-without-sets", changed(edges_without_sets)),
        ("ends-before-edges", changed(ends_before_edges)),
        ("second-set", changed(second_set)),
    ]
}

fn edges_without_sets(graph: &mut Lent) {
    graph.words[EDGES] = vec![2];
    graph.count_all();
}

/// The edge is bad, and so is the last end.
fn ends_before_edges(graph: &mut Lent) {
    graph.words[EDGES] = vec![12, 2];
    graph.words[ENDS] = vec![1, 1];
    graph.count_all();
}

/// A bad edge at the second place of the second set, and another in the third.
fn second_set(graph: &mut Lent) {
    graph.words[EDGES] = vec![2, 3, 12, 13];
    graph.words[ENDS] = vec![1, 3, 4];
    graph.count_all();
}

/// A constructor on a graph with free rows behind it; the counts of the lists stay as they are.
fn constructor(call: u64, graph: &Lent, free: usize, lent: &[usize], arguments: &[u64]) -> Case {
    let mut graph = graph.clone();
    graph.words[ROWS].extend([7].repeat(2 * free));
    making::case(call, &graph, lent, arguments)
}

/// Row 0 and two leaves, both inputs: "three used rows".
fn three_rows() -> Lent {
    graph(&[LEAF, LEAF], &[1, 2], &[], &[])
}

fn new_and_leaf_cases() -> Vec<(&'static str, Case)> {
    let new = |words: &[u32]| Case::new(40, &[]).lend(ROWS, words.to_vec());
    let leaf = |graph: &Lent, free| constructor(41, graph, free, &[ROWS], &[]);
    let input = |call, free, words: &[u32], arguments: &[u64]| {
        let mut graph = three_rows();
        graph.words[INPUTS] = words.to_vec();
        constructor(call, &graph, free, &[ROWS, INPUTS], arguments)
    };
    let mut unscanned = three_rows();
    unscanned.words[ROWS].fill(9);
    unscanned.counts[FAIRNESS] = u64::MAX;
    vec![
        ("room-for-row-0", new(&[7, 7, 7])),
        ("no-room-for-row-0", new(&[7])),
        ("leaf", leaf(&table_x(), 1)),
        ("full", leaf(&table_x(), 0)),
        ("neither-rows-nor-other-counts", leaf(&unscanned, 1)),
        ("input", input(42, 1, &[1, 2, 7], &[])),
        ("no-entry-free", input(42, 1, &[1, 2], &[])),
        ("no-row-free", input(42, 0, &[1, 2, 7], &[])),
        ("any-used-id", input(43, 0, &[1, 2, 7], &[0])),
        ("last-used-id", input(43, 0, &[1, 2, 7], &[2])),
        ("first-unused-id", input(43, 1, &[1, 2, 7], &[3])),
    ]
}

/// Three used rows, a row free, and room for one latch.
fn latch_cases() -> Vec<(&'static str, Case)> {
    let none = u64::from(NONE);
    let latch = |call, arguments: &[u64]| {
        let mut graph = three_rows();
        graph.words[LATCHES] = vec![7; 4];
        constructor(call, &graph, 1, &[ROWS, LATCHES], arguments)
    };
    vec![
        ("no-init", latch(44, &[5, none])),
        ("init-true", latch(44, &[0, 1])),
        ("its-own-row-as-next", latch(44, &[6, none])),
        ("none-as-next", latch(44, &[none, none])),
        ("init-not-used", latch(44, &[0, 6])),
        ("any-used-id", latch(45, &[0, 5, none])),
        ("first-unused-id", latch(45, &[3, 5, none])),
    ]
}

/// "M1 and(2,2) is 2; M2 and(2,3) is 0; M3 and(1,5) is 5; M4 and(0,5) is 0: no row." "M5 three
/// used rows: and(4,2) adds row 3 = (2,4), answers 6; eq(2,4) on those three adds X's last rows
/// and answers 11." "M6 eq(2,2) is 1, no row." What folds is called on the full table X.
fn gate_cases() -> Vec<(&'static str, Case)> {
    let full = |call, edges| constructor(call, &table_x(), 0, &[ROWS], edges);
    let three = |call, free, edges| constructor(call, &three_rows(), free, &[ROWS], edges);
    vec![
        ("M1", full(51, &[2, 2])),
        ("M2", full(51, &[2, 3])),
        ("M3", full(51, &[1, 5])),
        ("M4", full(51, &[0, 5])),
        ("M5", three(51, 3, &[4, 2])),
        ("M5", three(59, 3, &[2, 4])),
        ("M6", full(59, &[2, 2])),
        ("full", full(51, &[2, 4])),
        ("one-row-short", three(59, 2, &[2, 4])),
        ("edge-not-used", full(51, &[0, 12])),
        ("smaller-id-first", three(50, 1, &[5, 2])),
        ("order-of-equal-ids", three(50, 1, &[3, 2])),
        ("no-folding", full(50, &[2, 2])),
        ("or", three(52, 1, &[5, 2])),
        ("or-of-complements", full(53, &[4, 5])),
        ("imply", three(58, 1, &[2, 4])),
        ("imply-itself", full(58, &[4, 4])),
    ]
}

/// "empty ands is true, empty ors is false, one entry is itself"
fn list_cases() -> Vec<(&'static str, Case)> {
    let list = |call, free, edges: &[u32]| {
        let case = constructor(call, &three_rows(), free, &[ROWS], &[]);
        case.lend(LIST, edges.to_vec())
    };
    let mut cases = Vec::new();
    for call in 54..=57 {
        cases.push(("empty", list(call, 0, &[])));
        cases.push(("itself", list(call, 0, &[3])));
        cases.push(("not-used", list(call, 1, &[6])));
        cases.push(("three", list(call, 2, &[4, 2, 3])));
        cases.push(("one-row-short", list(call, 1, &[4, 2, 3])));
        cases.push(("equal", list(call, 0, &[4, 4, 4])));
        cases.push(("a-row-and-a-constant", list(call, 2, &[4, 2, 0, 1])));
    }
    cases
}

/// "A slot that is not given is lent empty."
fn shortly(mut case: Case) -> Case {
    case.slots.retain(|slot| !slot.words.is_empty());
    case
}

/// Roots on table X, and on latches that are crossed or not.
fn cone_cases() -> Vec<(&'static str, Case)> {
    let of = |call, graph: &Lent, roots: &[u32]| {
        let garbage = vec![7; graph.room(ROWS) + 1];
        shortly(cones::case(call, graph, roots, &garbage, &garbage))
    };
    let (x, latches) = (table_x(), table_of_latches());
    let mut own_row = x.clone();
    own_row.words[ROWS][10] = 10;
    let mut cases = vec![
        ("not-X", of(LOGIC, &x, &[11])),
        ("gate-and-constant", of(LOGIC, &x, &[7, 1])),
        ("latch-not-crossed", of(LOGIC, &latches, &[2])),
        ("chain-of-latches", of(COI, &latches, &[1])),
        ("init-not-followed", of(COI, &latches, &[3])),
        ("last-row", of(COI, &x, &[5])),
    ];
    for (call, unused) in [(LOGIC, 12), (COI, 6)] {
        let garbage = [7; 6];
        cases.push(("no-root", of(call, &x, &[])));
        cases.push(("one-root-twice", of(call, &x, &[3, 3])));
        cases.push(("last-and-not-used", of(call, &x, &[unused - 1, unused])));
        cases.push(("row-before-root", of(call, &own_row, &[unused])));
        let short = cones::case(call, &x, &[unused], &garbage[..5], &garbage);
        cases.push(("flags-one-short", shortly(short)));
        let short = cones::case(call, &x, &[], &garbage, &garbage[..5]);
        cases.push(("marks-one-short", shortly(short)));
    }
    cases
}

/// The graph with free entries of garbage in each slice that has some.
fn with_free(graph: &Lent, free: &[(usize, usize)]) -> Lent {
    let mut graph = graph.clone();
    for &(slice, entries) in free {
        graph.words[slice].extend([7].repeat(entries * WIDTH[slice]));
    }
    graph
}

/// An output graph of garbage, with as much room as the graph has, and some entries more or fewer.
fn room_of(graph: &Lent, more: &[(usize, isize)]) -> Lent {
    let mut room = graph.clone();
    for (slice, words) in room.words.iter_mut().enumerate() {
        let more = more.iter().filter(|(of, _)| *of == slice).map(|(_, n)| n);
        let entries = (words.len() / WIDTH[slice]).strict_add_signed(more.sum());
        *words = vec![7; entries * WIDTH[slice]];
    }
    room
}

/// Table X twice, and what is mapped or not.
fn merge_cases() -> Vec<(&'static str, Case)> {
    let of = |own: &Lent, other: &Lent| {
        let marks = vec![7; 1 + own.counted(ROWS).max(other.counted(ROWS))];
        shortly(merge::case(own, other, marks))
    };
    let (x, alone) = (table_x(), Lent::new());
    let x_and = |rows, inputs| with_free(&x, &[(ROWS, rows), (INPUTS, inputs), (OUTPUTS, 1)]);
    let leaf = graph(&[LEAF], &[1], &[], &[]);
    let latch = graph(&[LEAF], &[], &[[1, 2, 2]], &[]);
    let latch_too = graph(&[LEAF, LEAF], &[], &[[2, 1, NONE], [1, 0, 1]], &[]);
    let mut sets = graph(&[LEAF], &[1], &[], &[]);
    second_set(&mut sets);
    sets.words[EDGES] = vec![2, 3, 0, 1];
    let mut own_row = x.clone();
    own_row.words[ROWS][10] = 10;
    let mut twice = x.clone();
    twice.words[INPUTS] = vec![1, 1];
    let mut none = x.clone();
    none.counts[ROWS] = 0;
    let short = merge::case(&leaf, &x, vec![7; 5]);
    vec![
        ("X-and-X", of(&x_and(5, 2), &x)),
        ("X-and-X-one-row-short", of(&x_and(4, 2), &x)),
        ("X-and-X-one-input-short", of(&x_and(5, 1), &x)),
        ("row-0-alone", of(&x, &alone)),
        (
            "to-row-0-alone",
            of(&with_free(&alone, &[(ROWS, 1), (INPUTS, 1)]), &leaf),
        ),
        (
            "init-of-a-row",
            of(&with_free(&leaf, &[(ROWS, 1), (LATCHES, 1)]), &latch),
        ),
        (
            "constant-inits",
            of(&with_free(&latch, &[(ROWS, 2), (LATCHES, 2)]), &latch_too),
        ),
        (
            "sets",
            of(
                &with_free(&sets, &[(ROWS, 1), (INPUTS, 1), (ENDS, 3), (EDGES, 4)]),
                &sets,
            ),
        ),
        (
            "sets-one-edge-short",
            of(
                &with_free(&sets, &[(ROWS, 1), (INPUTS, 1), (ENDS, 3), (EDGES, 3)]),
                &sets,
            ),
        ),
        ("first-before-second", of(&twice, &own_row)),
        ("second-before-room", of(&x, &twice)),
        ("sizes-of-the-second-first", of(&own_row, &none)),
        ("marks-of-the-larger", shortly(short)),
    ]
}

/// "M12 reencode of leaves 1, 2, inputs 2, latch (1, 4, 5) gives latch (2, 2, 3)"
fn reencode_cases() -> Vec<(&'static str, Case)> {
    let of = |graph: &Lent, more: &[(usize, isize)]| {
        let marks = vec![7; 1 + graph.room(ROWS)];
        shortly(reencode::case(graph, &room_of(graph, more), marks))
    };
    let (x, m12) = (table_x(), table_m12());
    // gates before their leaves, (5,2) and (9,8)
    let rows = [[1, 0], LEAF, LEAF, [5, 2], [9, 8], LEAF];
    let mixed = graph(&rows, &[6, 2], &[[3, 11, 12]], &[10]);
    let orphan = graph(&[LEAF, LEAF], &[2], &[], &[2]);
    let mut own_row = orphan.clone();
    own_row.words[ROWS][4] = 4;
    vec![
        ("M12", of(&m12, &[])),
        ("M12-one-latch-short", of(&m12, &[(LATCHES, -1)])),
        ("X-as-it-is", of(&x, &[(ROWS, 1), (OUTPUTS, 1)])),
        ("X-one-row-short", of(&x, &[(ROWS, -1)])),
        ("mixed", of(&mixed, &[])),
        ("row-0-alone", of(&Lent::new(), &[])),
        ("orphan", of(&orphan, &[])),
        ("orphan-before-room", of(&orphan, &[(ROWS, -3)])),
        ("row-before-orphan", of(&own_row, &[])),
    ]
}

/// What is kept of table X, of latches and of orphans.
fn refine_cases() -> Vec<(&'static str, Case)> {
    let of = |graph: &Lent, more: &[(usize, isize)], words: usize| {
        let marks = vec![7; 1 + graph.room(ROWS)];
        shortly(refine::case(
            graph,
            &room_of(graph, more),
            vec![7; words],
            marks,
        ))
    };
    let (x, latches) = (table_x(), table_of_latches());
    let mut first_gate = x.clone();
    first_gate.words[OUTPUTS][0] = 7;
    let mut no_root = x.clone();
    no_root.counts[OUTPUTS] = 0;
    // 1 and 2 are orphans: the gate over 1 is the init of 3, that over 2 is nothing's
    let orphans = graph(&[LEAF, LEAF, LEAF, [3, 1], [4, 6]], &[], &[[3, 0, 9]], &[]);
    let mut own_row = no_root.clone();
    own_row.words[ROWS][10] = 10;
    vec![
        ("X-whole", of(&x, &[(ROWS, 1)], 7)),
        ("X-one-word-short", of(&x, &[], 5)),
        ("X-one-row-short", of(&x, &[(ROWS, -1)], 6)),
        ("first-gate", of(&first_gate, &[(ROWS, -2)], 4)),
        ("no-root", of(&no_root, &[(ROWS, -5), (INPUTS, -2)], 1)),
        ("no-latch-dropped", of(&latches, &[], 7)),
        ("one-latch-short", of(&latches, &[(LATCHES, -1)], 7)),
        ("orphans", of(&orphans, &[(ROWS, -2)], 5)),
        ("row-before-room", of(&own_row, &[], 0)),
    ]
}

/// "M13 latch 1 with next 3: one unroll makes next 2, no row."
fn unroll_cases() -> Vec<(&'static str, Case)> {
    let of = |target: &Lent, from: &Lent| {
        let marks = vec![7; 1 + target.counted(ROWS).max(from.counted(ROWS))];
        shortly(unroll::case(target, from, marks))
    };
    let (m13, frame) = (table_m13(), table_of_a_frame());
    let grown = |graph: &Lent, rows, inputs| {
        with_free(graph, &[(ROWS, rows), (INPUTS, inputs), (OUTPUTS, 1)])
    };
    // as a frame leaves it
    let second = graph(
        &[LEAF, LEAF, [2, 5], LEAF, LEAF, [7, 10], LEAF],
        &[1, 5, 7],
        &[[2, 12, 4]],
        &[7, 13],
    );
    let swapped = graph(&[LEAF, LEAF, [5, 2], LEAF], &[1], &[[2, 6, 4]], &[7]);
    let no_latch = graph(&[LEAF, LEAF, [2, 5], LEAF], &[1], &[], &[7]);
    let [first, last] = [[[1, 4, 0], [2, 3, 1]], [[2, 3, 1], [1, 4, 0]]]
        .map(|latches| graph(&[LEAF, LEAF], &[], &latches, &[]));
    let mut own_row = frame.clone();
    own_row.words[ROWS][6] = 6;
    let mut none = frame.clone();
    none.counts[ROWS] = 0;
    let short = unroll::case(&m13, &frame, vec![7; 4]);
    vec![
        ("M13", of(&m13, &m13)),
        ("first-frame", of(&grown(&frame, 3, 2), &frame)),
        ("one-row-short", of(&grown(&frame, 2, 2), &frame)),
        ("one-input-short", of(&grown(&frame, 3, 1), &frame)),
        ("second-frame", of(&grown(&second, 3, 2), &frame)),
        ("two-latches", of(&first, &first)),
        ("latches-in-another-order", of(&first, &last)),
        ("no-latch", of(&grown(&no_latch, 3, 2), &frame)),
        ("fanins-in-another-order", of(&swapped, &frame)),
        ("fewer-rows", of(&m13, &frame)),
        ("first-before-second", of(&own_row, &none)),
        ("second-before-target", of(&m13, &own_row)),
        ("marks-of-the-larger", shortly(short)),
    ]
}

/// The frames that are finished stand, and the copy; where it does not fit there is none.
fn unroll_to_cases() -> Vec<(&'static str, Case)> {
    let of = |graph: &Lent, frames, more: &[(usize, isize)]| {
        let marks = vec![7; 1 + graph.counted(ROWS)];
        shortly(unroll::case_to(graph, frames, &room_of(graph, more), marks))
    };
    let (m13, frame) = (table_m13(), table_of_a_frame());
    let room = |frames: isize| [(ROWS, 3 * frames), (INPUTS, 2 * frames), (OUTPUTS, frames)];
    let mut own_row = frame.clone();
    own_row.words[ROWS][6] = 6;
    vec![
        ("M13", of(&m13, 1, &[])),
        ("M13-4096-frames", of(&m13, 4_096, &[])),
        ("M13-4097-frames", of(&m13, 4_097, &[])),
        ("no-frame", of(&frame, 0, &[(ROWS, 1)])),
        ("two-frames", of(&frame, 2, &room(2))),
        ("one-of-two-frames", of(&frame, 2, &room(1))),
        ("one-output-short", of(&frame, 1, &[(ROWS, 3), (INPUTS, 2)])),
        ("the-copy-alone", of(&frame, 4_096, &[])),
        ("not-the-copy", of(&frame, 1, &[(ROWS, -1), (INPUTS, 2)])),
        ("frames-before-room", of(&frame, 4_097, &[(LATCHES, -1)])),
        ("row-before-frames", of(&own_row, 4_097, &[])),
    ]
}

/// A graph with constraints, bads and outputs.
fn with_properties(graph: &Lent, constraints: &[u32], bads: &[u32], outputs: &[u32]) -> Lent {
    let mut graph = graph.clone();
    graph.words[CONSTRAINTS] = constraints.to_vec();
    graph.words[BADS] = bads.to_vec();
    graph.words[OUTPUTS] = outputs.to_vec();
    graph.count_all();
    graph
}

/// The first bad and the first output are guarded, and nothing is asked for constraints.
fn move_cases() -> Vec<(&'static str, Case)> {
    let of = |graph: &Lent, more: &[(usize, isize)]| {
        let marks = vec![7; 1 + graph.counted(ROWS)];
        shortly(property::case_of_move(graph, &room_of(graph, more), marks))
    };
    let two = graph(&[LEAF, LEAF], &[1, 2], &[], &[]);
    let constrained = with_properties(&two, &[2, 5], &[3, 4], &[2, 1]);
    let none = with_properties(&two, &[], &[3], &[]);
    let never = with_properties(&two, &[4, 5], &[3], &[2]);
    let mut own_row = constrained.clone();
    own_row.words[ROWS][4] = 4;
    vec![
        (
            "constraints",
            of(&constrained, &[(ROWS, 5), (LATCHES, 1), (CONSTRAINTS, -2)]),
        ),
        (
            "one-row-short",
            of(&constrained, &[(ROWS, 4), (LATCHES, 1)]),
        ),
        ("no-latch-free", of(&constrained, &[(ROWS, 5)])),
        ("no-constraint", of(&none, &[(ROWS, 2), (LATCHES, 1)])),
        ("never", of(&never, &[(ROWS, 1), (LATCHES, 1)])),
        ("row-before-room", of(&own_row, &[])),
    ]
}

/// "leaves one bad, the or of all (constant false if there were none), and hands back the old list"
fn compress_cases() -> Vec<(&'static str, Case)> {
    let of = |bads: &[u32], free: &[(usize, usize)], old: usize| {
        let two = graph(&[LEAF, LEAF], &[1, 2], &[], &[]);
        let graph = with_free(&with_properties(&two, &[], bads, &[]), free);
        let marks = vec![7; 1 + graph.counted(ROWS)];
        shortly(property::case_of_compress(&graph, vec![7; old], marks))
    };
    vec![
        ("no-bad", of(&[], &[(BADS, 1)], 0)),
        ("no-bad-no-room", of(&[], &[(ROWS, 1)], 1)),
        ("one-bad", of(&[5], &[], 1)),
        ("three-bads", of(&[2, 4, 2], &[(ROWS, 2)], 4)),
        ("one-row-short", of(&[2, 4, 2], &[(ROWS, 1)], 3)),
        ("one-word-short", of(&[2, 4, 2], &[(ROWS, 2)], 2)),
        ("bads-that-fold", of(&[2, 2, 0], &[], 3)),
        ("always", of(&[2, 4, 1], &[(ROWS, 1)], 3)),
        ("entry-before-room", of(&[2, 6], &[], 0)),
    ]
}

/// "per such latch a constraint "new latch implies latch equals init". No such latch: nothing
/// changes."
fn gate_init_cases() -> Vec<(&'static str, Case)> {
    let of = |latches: &[[u32; 3]], rows: usize, entries: usize| {
        let three = graph(&[LEAF, LEAF, LEAF], &[], latches, &[]);
        let free = [
            (ROWS, rows),
            (LATCHES, entries.min(1)),
            (CONSTRAINTS, entries),
        ];
        let graph = with_free(&three, &free);
        let marks = vec![7; 1 + graph.counted(ROWS)];
        shortly(property::case_of_gate_init(&graph, marks))
    };
    vec![
        ("no-such-latch", of(&[[1, 4, NONE], [2, 3, 1]], 0, 0)),
        ("one", of(&[[1, 4, 6], [2, 3, 1]], 5, 1)),
        ("one-row-short", of(&[[1, 4, 6], [2, 3, 1]], 4, 1)),
        ("no-entry-free", of(&[[1, 4, 6], [2, 3, 1]], 5, 0)),
        ("one-constraint-short", of(&[[1, 4, 6], [2, 3, 4]], 9, 1)),
        ("itself-and-never", of(&[[3, 0, 6], [1, 0, 3]], 1, 2)),
        (
            "two-and-one-kept",
            of(&[[3, 0, 7], [2, 0, 0], [1, 0, 4]], 5, 2),
        ),
        ("entry-before-room", of(&[[1, 4, 8], [2, 3, 1]], 0, 0)),
    ]
}

/// "M7 a gate (2,3) over an unknown leaf is unknown, though `new_and_node` folds it." The latches
/// are stepped frame by frame.
fn ternary_cases() -> Vec<(&'static str, Case)> {
    let of = |call, graph: &Lent, inputs: &[u32], state: &[u32]| {
        let lending = Lending {
            inputs: inputs.to_vec(),
            state: state.to_vec(),
            values: vec![77; graph.room(ROWS) + 1],
            marks: vec![7; graph.room(ROWS) + 1],
        };
        shortly(ternary::case(call, graph, lending))
    };
    let (m7, x, latches) = (table_m7(), table_x(), table_of_latches());
    let mut orphans = x.clone();
    orphans.counts[INPUTS] = 0;
    let mut own_row = x.clone();
    own_row.words[ROWS][10] = 10;
    let mut cases = vec![
        ("M7", of(RUN, &m7, &[2], &[])),
        ("M7", of(STEP, &m7, &[2], &[])),
        ("known", of(RUN, &m7, &[1], &[])),
        ("orphans", of(RUN, &orphans, &[], &[])),
        ("frame-1", of(STEP, &latches, &[0], &[2, 2, 2])),
        ("frame-2", of(STEP, &latches, &[1], &[2, 2, 0])),
        ("frame-3", of(STEP, &latches, &[2], &[1, 0, 1])),
        ("frame-4", of(STEP, &latches, &[0], &[2, 1, 2])),
    ];
    // every pair of codes
    for pair in 0..9 {
        cases.push(("X", of(RUN, &x, &[pair / 3, pair % 3], &[])));
    }
    for call in [RUN, STEP] {
        cases.push(("input-missing", of(call, &latches, &[], &[0, 0, 0])));
        cases.push(("state-too-long", of(call, &latches, &[0], &[0, 0, 0, 0])));
        cases.push(("input-of-3", of(call, &latches, &[3], &[0, 0, 0])));
        cases.push(("state-of-255", of(call, &latches, &[0], &[0, 0, 255])));
        cases.push(("row-before-bytes", of(call, &own_row, &[3], &[])));
        let mut short = of(call, &x, &[3], &[]);
        for slot in short.slots.iter_mut().filter(|s| s.number == VALUES) {
            slot.words.truncate(5);
        }
        cases.push(("values-one-short", short));
    }
    cases
}

/// Of the values 0, 2, 2 of M7, and of bytes that are none.
fn value_cases() -> Vec<(&'static str, Case)> {
    let of =
        |used, values: &[u32], edge| Case::new(VALUE, &[used, edge]).lend(VALUES, values.to_vec());
    vec![
        ("M7", of(3, &[0, 2, 2], 4)),
        ("M7", of(3, &[0, 2, 2], 5)),
        ("false", of(3, &[0, 2, 2], 0)),
        ("true", of(3, &[0, 2, 2], 1)),
        ("row-0-as-it-stands", of(1, &[1], 0)),
        ("not-used", of(2, &[0, 2, 2], 4)),
        ("byte-of-3", of(2, &[3, 3], 2)),
        ("other-byte-of-3", of(2, &[3, 1], 2)),
        ("no-row-used", of(0, &[0], 0)),
        ("values-one-short", of(3, &[0, 2], 9)),
    ]
}

/// "M8 X, shortcuts on, whole buffer", "M9 X, off [..]. A buffer of 31: answer 5, untouched." "M10
/// [..]: if 1 then 2 else 3." "M11 row 0 alone, no roots: 1 1."
fn clause_cases() -> Vec<(&'static str, Case)> {
    let of = |graph: &Lent, shortcuts, room| {
        let marks = vec![7; graph.room(ROWS) + 1];
        shortly(clauses::case(graph, shortcuts, vec![7; room], marks))
    };
    let (x, m10, alone) = (table_x(), table_m10(), Lent::new());
    let mut no_root = x.clone();
    no_root.counts[OUTPUTS] = 0;
    let mut own_row = x.clone();
    own_row.words[ROWS][10] = 10;
    let short = clauses::case(&x, 1, Vec::new(), vec![7; 5]);
    // (¬m,¬m) with m = (x,¬x), and exclusive ors that have row 0 in them
    let twice = graph(&[LEAF, [2, 3], [5, 5]], &[1], &[], &[6]);
    let over_row_0 = graph(&[LEAF, [0, 2], [1, 3], [5, 7]], &[1], &[], &[9]);
    // the complements stand at the other places
    let crossed = graph(&[LEAF, LEAF, [2, 4], [5, 3], [7, 9]], &[1, 2], &[], &[10]);
    let plain_fanin = graph(&[LEAF, LEAF, [2, 4], [3, 5], [7, 8]], &[1, 2], &[], &[10]);
    vec![
        ("M8", of(&x, 1, 18)),
        ("M9", of(&x, 0, 32)),
        ("M9-one-short", of(&x, 0, 31)),
        ("M10", of(&m10, 1, 18)),
        ("M11", of(&alone, 1, 2)),
        ("M11-no-room", of(&alone, 0, 1)),
        ("one-short", of(&x, 1, 17)),
        ("no-room", of(&x, 1, 0)),
        ("no-root", of(&no_root, 1, 3)),
        ("gates-of-nexts-and-inits", of(&table_of_latches(), 1, 22)),
        ("one-gate-twice", of(&twice, 1, 22)),
        ("over-row-0", of(&over_row_0, 1, 18)),
        ("crossed", of(&crossed, 1, 32)),
        ("plain-fanin", of(&plain_fanin, 1, 32)),
        ("row-before-room", of(&own_row, 1, 0)),
        ("marks-one-short", shortly(short)),
    ]
}

/// "rows 0, leaf 1, gate (2,3)"; the leaf is an input, the gate an output.
fn table_m7() -> Lent {
    graph(&[LEAF, [2, 3]], &[1], &[], &[4])
}

/// Latches 1, 2, 3 of which each has the one after it as its next, the last the input 4; 1 through
/// the gate 5 = (5,9). The init of 3 is the gate 6, which nothing else has.
fn table_of_latches() -> Lent {
    graph(
        &[LEAF, LEAF, LEAF, LEAF, [5, 9], [3, 6]],
        &[4],
        &[[1, 11, NONE], [2, 6, 1], [3, 8, 12]],
        &[2],
    )
}

/// "Table X: rows 0, leaf 1, leaf 2, 3 = (2,4), 4 = (3,5), 5 = (7,9); inputs 1, 2; output 10."
fn table_x() -> Lent {
    graph(&[LEAF, LEAF, [2, 4], [3, 5], [7, 9]], &[1, 2], &[], &[10])
}

/// "rows 4 = (2,5), 5 = (3,7), 6 = (9,11) over inputs 1 to 3"
fn table_m10() -> Lent {
    graph(
        &[LEAF, LEAF, LEAF, [2, 5], [3, 7], [9, 11]],
        &[1, 2, 3],
        &[],
        &[12],
    )
}

/// "leaves 1, 2, inputs 2, latch (1, 4, 5)"
fn table_m12() -> Lent {
    graph(&[LEAF, LEAF], &[2], &[[1, 4, 5]], &[])
}

/// "latch 1 with next 3"
fn table_m13() -> Lent {
    graph(&[LEAF], &[], &[[1, 3, NONE]], &[])
}

/// Input 1, latch 2 with the next 3 = (2,5), and the orphan 4.
fn table_of_a_frame() -> Lent {
    graph(&[LEAF, LEAF, [2, 5], LEAF], &[1], &[[2, 6, 4]], &[7])
}

/// Row 0 and the rows given, with no room to spare.
fn graph(rows: &[[u32; 2]], inputs: &[u32], latches: &[[u32; 3]], outputs: &[u32]) -> Lent {
    let mut graph = Lent::new();
    graph.words[ROWS].extend(rows.as_flattened());
    graph.words[INPUTS] = inputs.to_vec();
    graph.words[LATCHES] = latches.as_flattened().to_vec();
    graph.words[OUTPUTS] = outputs.to_vec();
    graph.count_all();
    graph
}

#[cfg(test)]
mod tests {
    use super::*;
    use crate::calls::STATE;
    use crate::calls::reencode::REENCODE;

    #[test]
    fn m1_to_m6_answer_as_document_01_says() {
        let marked = gate_cases();
        let answers = marked.iter().take(7).map(|(title, case)| {
            let outcome = (calls::of(case).expected)(case);
            assert_eq!(outcome.answer, Answer::DONE);
            (*title, outcome.results[0], outcome.results[9])
        });
        let expected = [
            ("M1", 6, 2),
            ("M2", 6, 0),
            ("M3", 6, 5),
            ("M4", 6, 0),
            ("M5", 4, 6),
            ("M5", 6, 11),
            ("M6", 6, 1),
        ];
        assert_eq!(answers.collect::<Vec<_>>(), expected);
        let eq = (calls::of(&marked[5].1).expected)(&marked[5].1);
        assert_eq!(eq.slots[0].words, table_x().words[ROWS]);
    }

    /// "a gate (2,3) over an unknown leaf is unknown"
    #[test]
    fn m7_answers_as_document_01_says() {
        let cases = ternary_cases().into_iter().chain(value_cases());
        let outcomes: Vec<_> = cases
            .filter(|(title, _)| *title == "M7")
            .map(|(_, case)| (case.call, (calls::of(&case).expected)(&case)))
            .collect();
        let calls: Vec<u64> = outcomes.iter().map(|(call, _)| *call).collect();
        assert_eq!(calls, [RUN, STEP, VALUE, VALUE]);
        for (call, outcome) in outcomes {
            assert_eq!(outcome.answer, Answer::DONE);
            let mut slots = outcome.slots.iter();
            let values = slots.find(|slot| slot.number == VALUES);
            let values = &values.expect("values are lent").words;
            assert_eq!(values[..3], [0, 2, 2]);
            if call == VALUE {
                assert_eq!(outcome.results, [2]);
            }
        }
    }

    /// The words that document 01 gives.
    #[test]
    fn m8_to_m11_answer_as_document_01_says() {
        let m8 = "1 1 3 11 2 4 3 11 3 5 3 10 3 4 3 10 2 5";
        let m9 = "1 1 2 11 7 2 11 9 3 10 6 8 2 9 3 2 9 5 3 8 2 4 2 7 2 2 7 4 3 6 3 5";
        let m10 = "1 1 3 13 3 4 3 13 2 6 3 12 3 5 3 12 2 7";
        for (title, words) in [("M8", m8), ("M9", m9), ("M10", m10), ("M11", "1 1")] {
            let cases = clause_cases().into_iter();
            let (_, case) = cases
                .into_iter()
                .find(|(t, _)| *t == title)
                .expect("it is there");
            let count = words.split(' ').count();
            let lines = (calls::of(&case).expected)(&case).lines(CNF);
            assert_eq!(lines[0], format!("100 0 0 0 0 1 {count}"));
            assert!(lines.contains(&format!("21 {count} {words}")));
        }
        let cases = clause_cases().into_iter();
        let short = cases.filter(|(title, _)| *title == "M9-one-short");
        for (_, case) in short {
            let outcome = (calls::of(&case).expected)(&case);
            assert_eq!(outcome.answer, Answer::NO_ROOM);
            assert!(
                outcome
                    .lines(CNF)
                    .contains(&format!("21 31{}", " 7".repeat(31)))
            );
        }
    }

    /// "gives latch (2, 2, 3)"
    #[test]
    fn m12_answers_as_document_01_says() {
        let (title, case) = &reencode_cases()[0];
        assert_eq!(*title, "M12");
        let lines = (calls::of(case).expected)(case).lines(REENCODE);
        assert_eq!(lines[0], "71 0 0 0 0 9 3 1 1 0 0 0 0 0 0");
        for line in [
            "9 6 4294967294 0 4294967295 0 4294967295 0",
            "10 1 1",
            "11 3 2 2 3",
        ] {
            assert!(lines.iter().any(|l| l == line), "{line}");
        }
    }

    /// "one unroll makes next 2, no row"
    #[test]
    fn m13_answers_as_document_01_says() {
        let results = |title, cases: Vec<(&str, Case)>| {
            let (_, case) = cases
                .into_iter()
                .find(|(t, _)| *t == title)
                .expect("it is there");
            let outcome = (calls::of(&case).expected)(&case);
            assert_eq!(outcome.answer, Answer::DONE);
            let mut slots = outcome.slots.iter();
            let latches = slots.find(|slot| slot.number == LATCHES);
            (
                outcome.results,
                latches.expect("latches are lent").words.clone(),
            )
        };
        let counts = [2, 0, 1, 0, 0, 0, 0, 0, 0];
        let once = results("M13", unroll_cases());
        assert_eq!(once, (counts.to_vec(), vec![1, 2, NONE]));
        for (title, frames, next) in [("M13", 1, 2), ("M13-4096-frames", 4_096, 3)] {
            let frames = [&[frames], &counts[..]].concat();
            assert_eq!(
                results(title, unroll_to_cases()),
                (frames, vec![1, next, NONE])
            );
        }
    }

    /// Each frame begins with the state that the one before it leaves.
    #[test]
    fn the_frames_of_the_sample_follow_one_another() {
        let cases = ternary_cases().into_iter();
        let frames = cases.filter(|(title, _)| title.starts_with("frame"));
        let mut left: Option<Vec<u32>> = None;
        for (title, case) in frames {
            if let Some(left) = left {
                assert_eq!(case.slot(STATE), left, "{title}");
            }
            let outcome = (calls::of(&case).expected)(&case);
            let mut slots = outcome.slots.iter();
            let state = slots.find(|slot| slot.number == STATE);
            left = Some(state.expect("a state is lent").words.clone());
        }
        assert_eq!(left, Some(vec![1, 2, 0]));
    }

    #[test]
    fn the_sample_is_small_and_has_every_call() {
        let calls: Vec<&Call> = calls::all().collect();
        let sample = sample(&calls);
        assert!(sample.stdin.len() + sample.stdout.len() < 320_000);
        for call in calls {
            assert!(sample.stdin.contains(&format!("{} ", call.name)));
        }
    }

    #[test]
    fn a_sample_of_some_calls() {
        let calls = calls::chosen("40,6").expect("both are calls");
        let sample = sample(&calls);
        let calls = sample.stdin.lines().filter(|line| !line.starts_with(' '));
        let is_chosen = |line: &str| {
            ["edge::constant", "build::new", "end"]
                .iter()
                .any(|name| line.contains(name))
        };
        assert!(calls.clone().all(is_chosen));
        assert!(calls::chosen("6,31").is_err());
    }
}
