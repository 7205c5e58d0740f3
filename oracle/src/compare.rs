//! Runs random cases of the calls and compares what the program writes.

use crate::calls::{self, Call};
use crate::case::{Case, Outcome};
use crate::program::{Program, Run};
use crate::rng::Rng;
use crate::shrink::shrink;
use std::collections::BTreeMap;
use std::io;
use std::process::ExitStatus;

/// Cases of each call in one script.
const ROUNDS: u64 = 100;
/// Runs of the program to find a smaller case.
const TRIES: usize = 2_000;
/// Characters shown of a line.
const SHOWN: usize = 600;

/// Of each call, how many cases had each answer.
pub type Tally = BTreeMap<u64, [u64; 6]>;

/// What was expected of a case and what the program wrote.
struct Difference<'a> {
    case: &'a Case,
    expected: Vec<String>,
    wrote: Vec<String>,
    ended: ExitStatus,
}

/// `count` cases of each of the calls; true where the program answers all of them as expected.
pub fn compare(
    program: &Program,
    count: u64,
    seed: u64,
    calls: &[&'static Call],
) -> io::Result<bool> {
    let mut tally = Tally::new();
    let mut same = true;
    for start in (0..count).step_by(ROUNDS as usize) {
        let cases = random_cases(calls, seed, start..count.min(start + ROUNDS));
        same = compare_cases(program, &cases, &mut tally)?;
        if !same {
            break;
        }
    }
    print_tally(calls, &tally);
    Ok(same)
}

/// True where the program answers all of them as expected; they are tallied.
pub fn compare_cases(program: &Program, cases: &[Case], tally: &mut Tally) -> io::Result<bool> {
    let run = program.run("cases", &script(cases))?;
    if let Some(at) = first_difference(cases, &run.lines, tally) {
        report(program, cases, at, &run)?;
        return Ok(false);
    }
    if let Some(complaint) = bad_end(cases, &run) {
        println!("{complaint}");
        return Ok(false);
    }
    Ok(true)
}

/// Round by round, so that a call stands after every other.
fn random_cases(calls: &[&Call], seed: u64, rounds: std::ops::Range<u64>) -> Vec<Case> {
    rounds
        .flat_map(|round| calls.iter().map(move |call| random_case(call, seed, round)))
        .collect()
}

pub fn random_case(call: &Call, seed: u64, round: u64) -> Case {
    let mut rng = Rng::of(&[seed, call.number, round]);
    let case = (call.random)(&mut rng, call.number);
    assert!(case.fits(), "a case of {} is too large", call.name);
    case
}

pub fn script(cases: &[Case]) -> String {
    let mut script = String::new();
    for case in cases {
        case.write(&mut script);
    }
    script
}

fn expected(case: &Case) -> Outcome {
    (calls::of(case).expected)(case)
}

/// The first case whose lines are not the expected ones; those before it are tallied.
fn first_difference(cases: &[Case], mut lines: &[String], tally: &mut Tally) -> Option<usize> {
    cases.iter().position(|case| {
        let outcome = expected(case);
        let expected = outcome.lines(case.call);
        let wrote;
        (wrote, lines) = lines.split_at(expected.len().min(lines.len()));
        let same = wrote == expected;
        if same {
            tally.entry(case.call).or_default()[outcome.answer.number as usize] += 1;
        }
        !same
    })
}

/// "one line for each slot given", after the first.
pub fn lines_of(case: &Case) -> usize {
    1 + case.slots.len()
}

/// Where every case is answered: did the program write more, or end otherwise than normally?
fn bad_end(cases: &[Case], run: &Run) -> Option<String> {
    let lines: usize = cases.iter().map(lines_of).sum();
    if run.lines.len() > lines {
        let more = shown(&run.lines[lines]);
        return Some(format!("after the last case the program wrote: {more}"));
    }
    let ended = run.ended;
    (!ended.success()).then(|| format!("the program answered every case, and ended: {ended}"))
}

/// The difference that the case makes alone.
fn alone<'a>(program: &Program, case: &'a Case) -> io::Result<Option<Difference<'a>>> {
    let run = program.run("alone", &script(std::slice::from_ref(case)))?;
    let expected = expected(case).lines(case.call);
    let same = run.lines == expected && run.ended.success();
    Ok((!same).then_some(Difference {
        case,
        expected,
        wrote: run.lines,
        ended: run.ended,
    }))
}

fn report(program: &Program, cases: &[Case], at: usize, run: &Run) -> io::Result<()> {
    println!("A DIFFERENCE");
    in_script(cases, at, run).print();
    let Some(case) = culprit(program, cases, at, run.ended)? else {
        println!("\nNo case makes a difference alone: this one does after those before it.\n");
        return Ok(());
    };
    let mut fails = |case: &Case| matches!(alone(program, case), Ok(Some(_)));
    let smallest = shrink(case, TRIES, &mut fails);
    if let Some(difference) = alone(program, &smallest)? {
        println!("\nTHE SMALLEST CASE FOUND");
        difference.print();
        println!();
    }
    Ok(())
}

/// The difference as it stands in the script.
fn in_script<'a>(cases: &'a [Case], at: usize, run: &Run) -> Difference<'a> {
    let before: usize = cases[..at].iter().map(lines_of).sum();
    let wrote = run.lines.iter().skip(before).take(lines_of(&cases[at]));
    Difference {
        case: &cases[at],
        expected: expected(&cases[at]).lines(cases[at].call),
        wrote: wrote.cloned().collect(),
        ended: run.ended,
    }
}

/// The case to blame is the one that differs, the one before it if that wrote too much, or a
/// later one if the program broke off before all that it wrote was out.
fn culprit<'a>(
    program: &Program,
    cases: &'a [Case],
    at: usize,
    ended: ExitStatus,
) -> io::Result<Option<&'a Case>> {
    let before = at.checked_sub(1);
    let later = if ended.success() { 0 } else { cases.len() };
    for index in [at].into_iter().chain(before).chain(at + 1..later) {
        if alone(program, &cases[index])?.is_some() {
            return Ok(Some(&cases[index]));
        }
    }
    Ok(None)
}

impl Difference<'_> {
    fn print(&self) {
        let mut text = String::new();
        self.case.write(&mut text);
        println!("call      {} {}", self.case.call, calls::of(self.case).name);
        println!("case      {}", shown(text.trim_end()));
        for line in 0..self.expected.len().max(self.wrote.len()) {
            print_lines(self.expected.get(line), self.wrote.get(line));
        }
        if !self.ended.success() {
            println!("the program ended with {}", self.ended);
        }
    }
}

fn print_lines(expected: Option<&String>, wrote: Option<&String>) {
    let text = |line: Option<&String>| line.map_or("(no line)".into(), |line| shown(line));
    if expected == wrote {
        println!("as both   {}", text(wrote));
        return;
    }
    println!("expected  {}", text(expected));
    println!("program   {}", text(wrote));
    if let (Some(expected), Some(wrote)) = (expected, wrote) {
        let words = expected.split(' ').zip(wrote.split(' ')).enumerate();
        for (word, (expected, wrote)) in words.filter(|(_, (a, b))| a != b).take(1) {
            println!("          word {word} is {wrote}, not {expected}");
        }
    }
}

/// A long line is cut.
fn shown(line: &str) -> String {
    match line.char_indices().nth(SHOWN) {
        Some((cut, _)) => format!("{} ... ({} characters)", &line[..cut], line.len()),
        None => line.to_owned(),
    }
}

pub fn print_tally(calls: &[&Call], tally: &Tally) {
    println!("{:36}{:>9}{:>9}", "call", "cases", "done");
    for call in calls {
        let counts = tally.get(&call.number).copied().unwrap_or_default();
        let cases: u64 = counts.iter().sum();
        let refused = (1..counts.len()).filter(|&number| counts[number] > 0);
        let refused: String = refused.map(|n| format!("  {n}: {}", counts[n])).collect();
        println!("{:36}{cases:9}{:9}{refused}", call.name, counts[0]);
    }
}
