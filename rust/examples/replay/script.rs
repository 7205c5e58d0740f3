//! Cases as they are read, and what is written for them.

use sulandiro::{Counts, Refusal};

const SLOTS: usize = 32;
const SCALARS: usize = 32;

pub struct Case {
    pub call: u64,
    pub scalars: [u64; SCALARS],
    /// "A slot that is not given is lent empty."
    pub slots: [Vec<u32>; SLOTS],
    /// The slots that were given, in that order.
    pub order: Vec<usize>,
}

impl Case {
    /// "An argument of 32 bits takes the scalar modulo 2^32"
    pub fn word(&self, index: usize) -> u32 {
        self.scalars[index] as u32
    }

    /// "a truth value is true unless the scalar is 0"
    pub fn truth(&self, index: usize) -> bool {
        self.scalars[index] != 0
    }

    /// Nine scalars from that one on.
    pub fn counts(&self, from: usize) -> Counts {
        let at = |i: usize| self.scalars[from + i] as usize;
        Counts {
            rows: at(0),
            inputs: at(1),
            latches: at(2),
            constraints: at(3),
            bads: at(4),
            outputs: at(5),
            sets: at(6),
            edges: at(7),
            fairness: at(8),
        }
    }
}

/// The numbers of a script. "A word that begins with anything but a digit is passed over".
pub struct Numbers<'a>(std::str::SplitAsciiWhitespace<'a>);

impl<'a> Numbers<'a> {
    pub fn of(text: &'a str) -> Self {
        Self(text.split_ascii_whitespace())
    }

    pub fn next(&mut self) -> Option<u64> {
        let starts_with_digit = |word: &&str| word.as_bytes()[0].is_ascii_digit();
        self.0.find(starts_with_digit)?.parse().ok()
    }

    /// The rest of a case; none where it is unreadable.
    pub fn case(&mut self, call: u64) -> Option<Case> {
        let mut case = Case {
            call,
            scalars: [0; SCALARS],
            slots: Default::default(),
            order: Vec::new(),
        };
        let scalars = self.next()? as usize;
        for scalar in case.scalars.get_mut(..scalars)? {
            *scalar = self.next()?;
        }
        for _ in 0..self.next()? {
            let slot = self.next()? as usize;
            if case.order.contains(&slot) {
                return None;
            }
            let length = self.next()?;
            let words = (0..length).map(|_| u32::try_from(self.next()?).ok());
            *case.slots.get_mut(slot)? = words.collect::<Option<_>>()?;
            case.order.push(slot);
        }
        Some(case)
    }
}

/// What a call answers.
pub struct Outcome {
    pub refusal: Option<Refusal>,
    pub results: Vec<u64>,
}

impl Outcome {
    /// Of a call that cannot be refused.
    pub fn plain(result: impl Into<u64>) -> Option<Self> {
        Some(Self {
            refusal: None,
            results: vec![result.into()],
        })
    }

    /// Of a call that can: refused, its results are zeros.
    pub fn of<const N: usize>(answer: Result<[u64; N], Refusal>) -> Option<Self> {
        Some(Self {
            refusal: answer.err(),
            results: answer.unwrap_or([0; N]).to_vec(),
        })
    }

    /// Of a call that leaves counts and these results behind them: refused, they are zeros.
    pub fn counted<const N: usize>(
        answer: Result<[u64; N], Refusal>,
        counts: &Counts,
    ) -> Option<Self> {
        let mut outcome = Self::of(answer)?;
        outcome.results.splice(0..0, words(counts));
        Some(outcome)
    }

    /// The number and the place.
    pub fn answer(&self) -> [u64; 4] {
        let Some(refusal) = self.refusal else {
            return [0; 4];
        };
        let number = refusal.number().into();
        match refusal {
            Refusal::BadRow(row) => [number, row as u64, 0, 0],
            Refusal::BadEntry {
                list,
                index,
                second,
            } => [number, list.into(), index as u64, second as u64],
            _ => [number, 0, 0, 0],
        }
    }
}

/// In the order of FORMAT.md.
pub fn words(counts: &Counts) -> [u64; 9] {
    let n = counts;
    [
        n.rows,
        n.inputs,
        n.latches,
        n.constraints,
        n.bads,
        n.outputs,
        n.sets,
        n.edges,
        n.fairness,
    ]
    .map(|count| count as u64)
}
