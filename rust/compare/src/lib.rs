//! The proved library and the independent implementation ([`mod@reference`]) side by side: one kind of
//! call and of answer for both, a sweep of boundaries, random histories, and what is counted and checked
//! on the way.

pub mod call;
pub mod chains;
pub mod comparison;
pub mod coverage;
pub mod damage;
pub mod drive;
pub mod inputs;
pub mod lasting;
pub mod lines;
pub mod make;
pub mod pieces;
pub mod quarrels;
pub mod random;
pub mod reader;
pub mod reading;
pub mod state;
pub mod steps;
pub mod sweep;
pub mod tallies;

use comparison::Comparison;

/// Most entries that an engine of the first edition held, before E5 (docs/RULES.md, 12.8).
pub const FORMER_ENTRIES: usize = 64;
/// Length of its policy record, and the most that the Sizes summed to.
pub const FORMER_POLICY_BYTES: usize = 8192;

/// Compares the calls of the sweep, then at least `calls` random ones. Tells what was hit, or the first
/// difference in words, which begin with the number of the call.
pub fn run(calls: u64, seed: u64) -> Result<Comparison, String> {
    let mut comparison = Comparison::default();
    let outcome = sweep::run(&mut comparison).and_then(|()| drive::run(&mut comparison, calls, seed));
    match outcome {
        Ok(()) => Ok(comparison),
        Err(difference) => Err(format!("call {}, {difference}", comparison.calls)),
    }
}
