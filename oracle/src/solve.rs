//! Asks a SAT solver about the clauses that the program writes, and compares what it says with the
//! values of the graph.

use crate::calls::OUTPUT;
use crate::calls::clauses::{self, CNF, split};
use crate::case::Case;
use crate::compare::{lines_of, script};
use crate::graph::{EDGE_LISTS, Kind, Lent, NONE, ROWS};
use crate::patterns;
use crate::program::Program;
use crate::rng::Rng;
use crate::wellformed::{self, Size};
use std::ffi::OsString;
use std::fmt::Write;
use std::fs;
use std::io;
use std::path::PathBuf;
use std::process::{Command, Stdio};

/// The graphs are small: all values of the leaves are tried.
const MOST_LEAVES: usize = 5;
const MOST_PATTERNS: usize = 5;
/// The roots of a graph that are asked about one by one.
const MOST_ROOTS: usize = 4;

/// A solver on the path or with its folder.
pub struct Solver {
    pub program: OsString,
    /// Where the questions stand.
    pub folder: PathBuf,
}

/// Is there a choice of the variables in which every clause is true?
type Asked<'a> = &'a mut dyn FnMut(&Formula) -> io::Result<bool>;

/// `count` small graphs, with shortcuts and without: true where the solver and the values of the
/// graphs agree.
pub fn solve(program: &Program, solver: &Solver, count: u64, seed: u64) -> io::Result<bool> {
    let graphs: Vec<Lent> = (0..count).map(|round| small_graph(seed, round)).collect();
    let mut questions = 0;
    let mut ask = |formula: &Formula| {
        questions += 1;
        solver.ask(formula)
    };
    for (shortcuts, name) in [(0, "off"), (1, "on")] {
        let cases: Vec<Case> = graphs.iter().map(|g| case(g, shortcuts)).collect();
        let run = program.run("solve", &script(&cases))?;
        let mut lines = &run.lines[..];
        for (graph, case) in graphs.iter().zip(&cases) {
            let wrote;
            (wrote, lines) = lines.split_at(lines_of(case).min(lines.len()));
            let complaint = match words_written(wrote) {
                Some(words) => complaint(graph, &words, &mut ask)?,
                None => Some(format!("the program wrote {wrote:?}")),
            };
            if let Some(complaint) = complaint {
                println!("A DIFFERENCE, shortcuts {name}: {complaint}");
                println!(
                    "case      {}",
                    script(std::slice::from_ref(case)).trim_end()
                );
                println!("program   {}", wrote.join("\n          "));
                return Ok(false);
            }
        }
    }
    println!("{count} graphs, shortcuts off and on, {questions} questions: the solver agrees");
    Ok(true)
}

fn small_graph(seed: u64, round: u64) -> Lent {
    let mut rng = Rng::of(&[seed, CNF, round]);
    loop {
        let graph = if rng.one_in(4) {
            let rows = rng.between(1, 14);
            wellformed::graph(&mut rng, Size::Rows(rows))
        } else {
            let patterns = rng.between(1, MOST_PATTERNS);
            patterns::graph(&mut rng, patterns)
        };
        if leaves(&graph).len() <= MOST_LEAVES {
            return graph;
        }
    }
}

/// "So at most 2 + 16·gates words": as many are lent, as if every row were a gate.
fn case(graph: &Lent, shortcuts: u64) -> Case {
    let used = graph.counted(ROWS);
    clauses::case(graph, shortcuts, vec![7; 2 + 16 * used], vec![7; used])
}

/// The clause words in what the program wrote for a case; none where it was not done.
fn words_written(lines: &[String]) -> Option<Vec<u32>> {
    let numbers = |line: &String| -> Option<Vec<u32>> {
        line.split(' ').map(|number| number.parse().ok()).collect()
    };
    let [call, 0, 0, 0, 0, 1, words] = numbers(lines.first()?)?[..] else {
        return None;
    };
    let slot = format!("{OUTPUT} ");
    let slot = numbers(lines.iter().skip(1).find(|l| l.starts_with(&slot))?)?;
    (u64::from(call) == CNF).then_some(())?;
    slot[2..].get(..words as usize).map(<[u32]>::to_vec)
}

fn leaves(graph: &Lent) -> Vec<usize> {
    let is_leaf = |&id: &usize| graph.kind(id) == Some(Kind::Leaf);
    (0..graph.counted(ROWS)).filter(is_leaf).collect()
}

/// Nexts, inits and the five root lists, each edge once, the last rows first.
fn roots(graph: &Lent) -> Vec<u32> {
    let mut roots: Vec<u32> = Vec::new();
    for [_, next, init] in graph.latches() {
        roots.extend([next, init].iter().filter(|&&edge| edge != NONE));
    }
    for list in EDGE_LISTS {
        roots.extend(graph.list(list));
    }
    roots.sort_by(|a, b| b.cmp(a));
    roots.dedup();
    roots
}

/// The value of every row, where bit i is the value of the i-th leaf.
fn values(graph: &Lent, filling: usize) -> Vec<bool> {
    let mut values: Vec<bool> = Vec::new();
    let mut leaves = 0;
    for id in 0..graph.counted(ROWS) {
        let value = match graph.kind(id) {
            Some(Kind::Gate(a, b)) => value(&values, a) && value(&values, b),
            Some(Kind::Leaf) => {
                leaves += 1;
                filling >> (leaves - 1) & 1 == 1
            }
            _ => false,
        };
        values.push(value);
    }
    values
}

fn value(values: &[bool], edge: u32) -> bool {
    values[edge as usize / 2] != (edge % 2 == 1)
}

/// What the clauses and the values of the graph do not agree in, if there is such.
fn complaint(graph: &Lent, words: &[u32], ask: Asked) -> io::Result<Option<String>> {
    let used = graph.counted(ROWS);
    let Some(clauses) = split(words) else {
        return Ok(Some("the last clause is not whole".into()));
    };
    if clauses
        .iter()
        .any(|c| c.iter().any(|&l| l as usize / 2 >= used))
    {
        return Ok(Some("a literal is of no row".into()));
    }
    let leaves = leaves(graph);
    let fillings: Vec<Vec<bool>> = (0..1 << leaves.len()).map(|f| values(graph, f)).collect();
    let roots = roots(graph);
    for &root in roots.iter().take(MOST_ROOTS) {
        for wanted in [true, false] {
            let mut formula = Formula::copies(used, &clauses, 1);
            formula.assert(0, root, wanted);
            let is_reached = fillings.iter().any(|values| value(values, root) == wanted);
            if ask(&formula)? != is_reached {
                let complaint = match is_reached {
                    true => format!("the clauses rule out that edge {root} is {wanted}"),
                    false => format!("the clauses allow that edge {root} is {wanted}"),
                };
                return Ok(Some(complaint));
            }
        }
    }
    if roots.is_empty() {
        return Ok(None);
    }
    // all values of the leaves at once, each in a copy of its own
    let mut fixed = Formula::copies(used, &clauses, fillings.len());
    for (copy, values) in fillings.iter().enumerate() {
        for &leaf in &leaves {
            fixed.assert(copy, 2 * leaf as u32, values[leaf]);
        }
    }
    let [mut as_evaluated, mut otherwise] = [fixed.clone(), fixed];
    let mut differs = Vec::new();
    for (copy, values) in fillings.iter().enumerate() {
        for &root in &roots {
            let value = value(values, root);
            as_evaluated.assert(copy, root, value);
            differs.push(otherwise.literal(copy, root, !value));
        }
    }
    otherwise.clauses.push(differs);
    if !ask(&as_evaluated)? {
        return Ok(Some("the values of the graph are ruled out".into()));
    }
    if ask(&otherwise)? {
        return Ok(Some(
            "the leaves do not force the values of the roots".into(),
        ));
    }
    Ok(None)
}

/// Clauses of numbers: a variable, or its negation where the number is below 0.
#[derive(Clone)]
struct Formula {
    rows: usize,
    copies: usize,
    clauses: Vec<Vec<i64>>,
}

impl Formula {
    /// The same clauses over so many rows each time. A row is a variable of its own, row 0 too.
    fn copies(rows: usize, clauses: &[&[u32]], copies: usize) -> Self {
        let mut formula = Self {
            rows,
            copies,
            clauses: Vec::new(),
        };
        for copy in 0..copies {
            for clause in clauses {
                let literals = clause.iter().map(|&l| formula.literal(copy, l, true));
                let literals = literals.collect();
                formula.clauses.push(literals);
            }
        }
        formula
    }

    /// The literal that says that an edge has a value. Variables are counted from 1.
    fn literal(&self, copy: usize, edge: u32, value: bool) -> i64 {
        let variable = (copy * self.rows + edge as usize / 2 + 1) as i64;
        let is_negated = (edge % 2 == 1) == value;
        if is_negated { -variable } else { variable }
    }

    fn assert(&mut self, copy: usize, edge: u32, value: bool) {
        let literal = self.literal(copy, edge, value);
        self.clauses.push(vec![literal]);
    }

    fn dimacs(&self) -> String {
        let mut text = format!("p cnf {} {}\n", self.rows * self.copies, self.clauses.len());
        for clause in &self.clauses {
            for literal in clause {
                write!(text, "{literal} ").expect("a string takes every text");
            }
            text.push_str("0\n");
        }
        text
    }
}

impl Solver {
    /// By the status that solvers end with: 10 is yes, 20 is no.
    fn ask(&self, formula: &Formula) -> io::Result<bool> {
        let question = self.folder.join("question.cnf");
        fs::write(&question, formula.dimacs())?;
        let ended = Command::new(&self.program)
            .arg(&question)
            .stdin(Stdio::null())
            .stdout(Stdio::null())
            .stderr(Stdio::null())
            .status()?;
        match ended.code() {
            Some(10) => Ok(true),
            Some(20) => Ok(false),
            _ => {
                let question = question.display();
                let complaint = format!("the solver ended on {question} with {ended}");
                Err(io::Error::other(complaint))
            }
        }
    }
}

#[cfg(test)]
mod tests {
    use super::*;
    use crate::graph::{LEAF, OUTPUTS};

    /// Clauses that hold nothing true are looked through again and again: one of a single open
    /// literal decides it, then a choice is tried both ways.
    fn is_satisfiable(formula: &Formula, values: &mut Vec<Option<bool>>) -> bool {
        let value = |values: &[Option<bool>], literal: i64| {
            values[literal.unsigned_abs() as usize].map(|value| value == (literal > 0))
        };
        let mut chosen = Vec::new();
        let undo = |values: &mut Vec<Option<bool>>, chosen: &[i64]| {
            for literal in chosen {
                values[literal.unsigned_abs() as usize] = None;
            }
        };
        loop {
            let before = chosen.len();
            let mut open = None;
            for clause in &formula.clauses {
                if clause.iter().any(|&l| value(values, l) == Some(true)) {
                    continue;
                }
                let mut left = clause.iter().filter(|&&l| value(values, l).is_none());
                match (left.next(), left.next()) {
                    (None, _) => {
                        undo(values, &chosen);
                        return false;
                    }
                    (Some(&literal), None) => {
                        values[literal.unsigned_abs() as usize] = Some(literal > 0);
                        chosen.push(literal);
                    }
                    (Some(&literal), Some(_)) => open = Some(literal),
                }
            }
            if chosen.len() > before {
                continue;
            }
            let Some(literal) = open else {
                return true;
            };
            for choice in [true, false] {
                values[literal.unsigned_abs() as usize] = Some(choice);
                if is_satisfiable(formula, values) {
                    return true;
                }
                values[literal.unsigned_abs() as usize] = None;
            }
            undo(values, &chosen);
            return false;
        }
    }

    fn ask(formula: &Formula) -> io::Result<bool> {
        let mut values = vec![None; formula.rows * formula.copies + 1];
        Ok(is_satisfiable(formula, &mut values))
    }

    fn found(graph: &Lent, words: &[u32]) -> Option<String> {
        complaint(graph, words, &mut ask).expect("this solver does not fail")
    }

    #[test]
    fn the_clauses_of_the_crate_mean_the_graph() {
        for round in 0..300 {
            let graph = small_graph(1, round);
            for shortcuts in [false, true] {
                let words = clauses::words(&graph, shortcuts);
                assert_eq!(found(&graph, &words), None, "{graph:?}");
            }
        }
    }

    fn with_output(rows: &[[u32; 2]], output: u32) -> Lent {
        let mut graph = Lent::new();
        graph.words[ROWS].extend(rows.as_flattened());
        graph.words[OUTPUTS] = vec![output];
        graph.count_all();
        graph
    }

    /// Every clause of table X and of an if-then-else is needed, and every literal as it stands.
    #[test]
    fn a_clause_that_is_missing_or_wrong_is_found() {
        let x = with_output(&[LEAF, LEAF, [2, 4], [3, 5], [7, 9]], 10);
        let ite = with_output(&[LEAF, LEAF, LEAF, [2, 5], [3, 7], [9, 11]], 12);
        for (graph, shortcuts) in [(&x, false), (&x, true), (&ite, false), (&ite, true)] {
            let words = clauses::words(graph, shortcuts);
            let clauses = split(&words).expect("the crate's clauses are whole");
            let joined = |clauses: &[Vec<u32>]| {
                let words = clauses.iter().map(|c| [&[c.len() as u32], &c[..]].concat());
                words.collect::<Vec<_>>().concat()
            };
            let whole: Vec<Vec<u32>> = clauses.iter().map(|c| c.to_vec()).collect();
            assert_eq!(joined(&whole), words);
            for at in 1..whole.len() {
                let mut missing = whole.clone();
                missing.remove(at);
                assert!(found(graph, &joined(&missing)).is_some());
                for literal in 0..whole[at].len() {
                    let mut wrong = whole.clone();
                    wrong[at][literal] ^= 1;
                    assert!(found(graph, &joined(&wrong)).is_some());
                }
            }
        }
    }

    /// "Leaving out the unit clause: a shortcut over row 0 is then free."
    #[test]
    fn a_missing_unit_clause_is_found() {
        let over = with_output(&[LEAF, [0, 2], [1, 3], [5, 7]], 9);
        let words = clauses::words(&over, true);
        assert_eq!(found(&over, &words), None);
        assert!(found(&over, &words[2..]).is_some());
        // "the one that writes only the unit clause"
        assert!(found(&over, &words[..2]).is_some());
        assert!(found(&over, &words[..3]).is_some());
        assert!(found(&over, &[1, 1, 1, 10]).is_some());
    }

    #[test]
    fn what_the_program_wrote_is_read() {
        let lines = |first: &str| [first, "0 0", "19 1 5", "21 3 1 1 7"].map(str::to_owned);
        let read = |first| words_written(&lines(first));
        assert_eq!(read("100 0 0 0 0 1 2"), Some(vec![1, 1]));
        assert_eq!(read("100 0 0 0 0 1 4"), None);
        assert_eq!(read("100 5 0 0 0 1 0"), None);
        assert_eq!(read("unreadable"), None);
        assert_eq!(words_written(&[]), None);
    }

    #[test]
    fn a_question_in_dimacs() {
        let mut formula = Formula::copies(3, &[&[1], &[5, 2]], 2);
        formula.assert(1, 4, false);
        let text = "p cnf 6 5\n-1 0\n-3 2 0\n-4 0\n-6 5 0\n-6 0\n";
        assert_eq!(formula.dimacs(), text);
    }
}
