//! A case and what is written for it, as FORMAT.md has them.

use std::fmt::Write;

/// The room of the program that reads the cases.
const WORDS_IN_ALL: usize = 600_000;
const SCALARS: usize = 32;

fn room(slot: usize) -> usize {
    match slot {
        0 | 9 => 131_200,
        2 | 11 => 196_800,
        _ => 65_600,
    }
}

/// "Bytes are given as numbers 0 to 255."
fn largest(slot: usize) -> u32 {
    match slot {
        22..=24 => 255,
        _ => u32::MAX,
    }
}

/// A lent slice.
#[derive(Debug, Clone, PartialEq, Eq)]
pub struct Slot {
    pub number: usize,
    pub words: Vec<u32>,
}

#[derive(Debug, Clone, PartialEq, Eq)]
pub struct Case {
    pub call: u64,
    pub scalars: Vec<u64>,
    pub slots: Vec<Slot>,
}

impl Case {
    pub fn new(call: u64, scalars: &[u64]) -> Self {
        Self {
            call,
            scalars: scalars.to_vec(),
            slots: Vec::new(),
        }
    }

    /// Lends one slice more.
    pub fn lend(mut self, number: usize, words: Vec<u32>) -> Self {
        self.slots.push(Slot { number, words });
        self
    }

    /// "A scalar that is not given is 0."
    pub fn scalar(&self, index: usize) -> u64 {
        self.scalars.get(index).copied().unwrap_or(0)
    }

    /// "An argument of 32 bits takes the scalar modulo 2^32".
    pub fn word(&self, index: usize) -> u32 {
        self.scalar(index) as u32
    }

    /// "A truth value is true unless the scalar is 0."
    pub fn truth(&self, index: usize) -> bool {
        self.scalar(index) != 0
    }

    /// "A slot that is not given is lent empty."
    pub fn slot(&self, number: usize) -> &[u32] {
        let given = self.slots.iter().find(|slot| slot.number == number);
        given.map_or(&[], |slot| &slot.words)
    }

    pub fn words(&self) -> usize {
        self.slots.iter().map(|slot| slot.words.len()).sum()
    }

    /// Can the program read it?
    pub fn fits(&self) -> bool {
        self.scalars.len() <= SCALARS
            && self.words() <= WORDS_IN_ALL
            && self.slots.iter().all(Slot::fits)
    }

    /// The call, its scalars and the number of slots.
    pub fn write_head(&self, script: &mut String) {
        let scalars = self.scalars.iter().copied();
        let head = [self.call, self.scalars.len() as u64].into_iter();
        write_numbers(script, head.chain(scalars).chain([self.slots.len() as u64]));
    }

    /// The case for the program, on one line.
    pub fn write(&self, script: &mut String) {
        self.write_head(script);
        for slot in &self.slots {
            script.push(' ');
            slot.write(script);
        }
        script.push('\n');
    }
}

impl Slot {
    fn fits(&self) -> bool {
        let largest = largest(self.number);
        self.words.len() <= room(self.number) && self.words.iter().all(|&word| word <= largest)
    }

    pub fn write(&self, text: &mut String) {
        write_numbers(text, [self.number as u64, self.words.len() as u64]);
        for word in &self.words {
            write!(text, " {word}").expect("a string takes every text");
        }
    }

    /// The line of the slot after the call.
    fn line(&self) -> String {
        let mut line = String::new();
        self.write(&mut line);
        line
    }
}

/// Numbers with one blank between them.
fn write_numbers(text: &mut String, numbers: impl IntoIterator<Item = u64>) {
    for (index, number) in numbers.into_iter().enumerate() {
        let blank = if index == 0 { "" } else { " " };
        write!(text, "{blank}{number}").expect("a string takes every text");
    }
}

/// A number of document 01 with its place.
#[derive(Debug, Clone, Copy, PartialEq, Eq, Default)]
pub struct Answer {
    pub number: u64,
    pub place: u64,
    pub index: u64,
    pub second: u64,
}

impl Answer {
    pub const DONE: Answer = Answer::number(0);
    pub const BAD_SIZES: Answer = Answer::number(1);
    pub const BAD_ARGUMENT: Answer = Answer::number(4);
    pub const NO_ROOM: Answer = Answer::number(5);

    const fn number(number: u64) -> Self {
        Self {
            number,
            place: 0,
            index: 0,
            second: 0,
        }
    }

    pub const fn bad_row(row: u64) -> Self {
        Self {
            place: row,
            ..Self::number(2)
        }
    }

    pub const fn bad_entry(list: u64, index: u64, second: u64) -> Self {
        Self {
            number: 3,
            place: list,
            index,
            second,
        }
    }
}

/// What a call leaves: its answer, its results and every lent slice.
#[derive(Debug, Clone, PartialEq, Eq)]
pub struct Outcome {
    pub answer: Answer,
    pub results: Vec<u64>,
    pub slots: Vec<Slot>,
}

impl Outcome {
    /// The outcome of a call that changes no lent word.
    pub fn reading(case: &Case, answer: Answer, results: &[u64]) -> Self {
        Self {
            answer,
            results: results.to_vec(),
            slots: case.slots.clone(),
        }
    }

    /// Writes the first words of a lent slice: "Words beyond what a call says it writes stay as
    /// they were."
    pub fn write(&mut self, number: usize, words: &[u32]) {
        match self.slots.iter_mut().find(|slot| slot.number == number) {
            Some(slot) => slot.words[..words.len()].copy_from_slice(words),
            None => assert!(words.is_empty(), "slot {number} is not lent"),
        }
    }

    /// The lines that the program has to write.
    pub fn lines(&self, call: u64) -> Vec<String> {
        let a = self.answer;
        let mut first = String::new();
        let head = [call, a.number, a.place, a.index, a.second];
        let results = self.results.iter().copied();
        let head = head.into_iter().chain([self.results.len() as u64]);
        write_numbers(&mut first, head.chain(results));
        let slots = self.slots.iter().map(Slot::line);
        std::iter::once(first).chain(slots).collect()
    }
}
