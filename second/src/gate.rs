//! How much the gate compares, which is what coverage is asked of.

/// The requests of the seeds from 1 to this one.
pub const REQUEST_SEEDS: u64 = 4;
pub const REQUESTS_OF_A_SEED: u64 = 10_000;
/// The bench files of the seeds from 1 to this one.
pub const FILE_SEEDS: u64 = 300;
