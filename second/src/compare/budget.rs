//! How many runs of the command may be spent.

use crate::Failure;

/// For the shrinking of one difference.
const MOST_RUNS: usize = 2000;

/// A run on a long input counts once more for every so many bytes, for it takes that much longer.
const BYTES_OF_A_RUN: usize = 250_000;

pub struct Budget {
    pub runs: usize,
    left: usize,
}

impl Budget {
    pub fn to_shrink() -> Self {
        let (runs, left) = (0, MOST_RUNS);
        Self { runs, left }
    }

    pub fn endless() -> Self {
        let (runs, left) = (0, usize::MAX);
        Self { runs, left }
    }

    /// For one run on so many bytes.
    pub fn spend(&mut self, bytes: usize) -> Result<(), Failure> {
        let reached =
            format!("the bound of {MOST_RUNS} runs is reached, of which one on a long input counts as several");
        let left = self.left.checked_sub(1 + bytes / BYTES_OF_A_RUN);
        self.left = left.ok_or(Failure::Message(reached))?;
        self.runs += 1;
        Ok(())
    }

    /// What is said of a shrinking that ended so.
    pub fn note(&self, ended: Result<(), Failure>) -> String {
        let runs = self.runs;
        match ended {
            Ok(()) => format!("shrunk in {runs} runs"),
            Err(failure) => format!("shrunk in {runs} runs, not to the end: {failure}"),
        }
    }
}
