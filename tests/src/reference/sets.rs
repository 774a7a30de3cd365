//! Sets of jobs, one bit each, in one word or in several.

use super::reading::MOST_JOBS;
use std::hash::{Hash, Hasher};

/// A set of jobs below 64 times so many words.
#[derive(Clone, Copy, PartialEq, Eq)]
pub struct Set<const WORDS: usize>([u64; WORDS]);

/// Words for all jobs that a file may have.
pub const ALL_WORDS: usize = MOST_JOBS.div_ceil(64);

impl<const WORDS: usize> Set<WORDS> {
    pub const EMPTY: Set<WORDS> = Set([0; WORDS]);

    pub fn of(jobs: impl IntoIterator<Item = usize>) -> Set<WORDS> {
        jobs.into_iter().fold(Set::EMPTY, Set::with)
    }

    pub fn has(&self, job: usize) -> bool {
        self.0[job / 64] >> (job % 64) & 1 == 1
    }

    pub fn with(mut self, job: usize) -> Set<WORDS> {
        self.0[job / 64] |= 1 << (job % 64);
        self
    }

    pub fn or(&self, other: &Set<WORDS>) -> Set<WORDS> {
        Set(std::array::from_fn(|at| self.0[at] | other.0[at]))
    }

    pub fn and(&self, other: &Set<WORDS>) -> Set<WORDS> {
        Set(std::array::from_fn(|at| self.0[at] & other.0[at]))
    }

    pub fn without(&self, other: &Set<WORDS>) -> Set<WORDS> {
        Set(std::array::from_fn(|at| self.0[at] & !other.0[at]))
    }

    pub fn is_empty(&self) -> bool {
        self.0.iter().all(|&word| word == 0)
    }

    pub fn count(&self) -> usize {
        self.0.iter().map(|word| word.count_ones() as usize).sum()
    }

    /// The lowest job of the set.
    pub fn first(&self) -> Option<usize> {
        let at = self.0.iter().position(|&word| word != 0)?;
        Some(64 * at + self.0[at].trailing_zeros() as usize)
    }
}

impl<const WORDS: usize> Hash for Set<WORDS> {
    fn hash<H: Hasher>(&self, hasher: &mut H) {
        self.0.iter().for_each(|&word| hasher.write_u64(word));
    }
}
