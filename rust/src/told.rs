//! What a call tells: number and place, then results.

use crate::{Counts, Refusal};

const PLACE: usize = 1;
const INDEX: usize = 2;
const SECOND: usize = 3;
const RESULT: usize = 4;
const MADE: usize = RESULT + 9;

pub(crate) struct Told([u64; MADE + 1]);

impl Told {
    /// Room for every call.
    pub(crate) fn new() -> Self {
        Self([0; MADE + 1])
    }

    pub(crate) fn as_mut_ptr(&mut self) -> *mut u64 {
        self.0.as_mut_ptr()
    }

    pub(crate) fn len(&self) -> usize {
        self.0.len()
    }

    fn at(&self, word: usize) -> usize {
        self.0[word] as usize
    }

    /// Was it done?
    pub(crate) fn answer(&self) -> Result<(), Refusal> {
        match self.0[0] {
            0 => Ok(()),
            1 => Err(Refusal::BadSizes),
            2 => Err(Refusal::BadRow(self.at(PLACE))),
            3 => Err(Refusal::BadEntry {
                list: self.at(PLACE) as u8,
                index: self.at(INDEX),
                second: self.at(SECOND),
            }),
            4 => Err(Refusal::BadArgument),
            5 => Err(Refusal::NoRoom),
            number => unreachable!("document 01 has no number {number}"),
        }
    }

    /// The results of a call that tells no counts, from the first on.
    pub(crate) fn result(&self, index: usize) -> usize {
        self.at(RESULT + index)
    }

    pub(crate) fn counts(&self) -> Counts {
        let words = &self.0[RESULT..MADE];
        Counts::of_words(words.try_into().expect("nine counts are told"))
    }

    /// What a call that tells counts made: an edge, an id or frames.
    pub(crate) fn made(&self) -> usize {
        self.at(MADE)
    }

    /// The counts after a call that changes a graph, where it was done; else they stay.
    pub(crate) fn count(&self, counts: &mut Counts) -> Result<(), Refusal> {
        self.answer()?;
        *counts = self.counts();
        Ok(())
    }
}
