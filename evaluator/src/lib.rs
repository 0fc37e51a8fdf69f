//! The independent evaluator for attachment routines: a second opinion on document 01, the makers of its input, and the
//! driver that compares other machines with it.

pub mod bench_runner;
mod bent_step;
pub mod compare;
pub mod deep;
pub mod entries;
pub mod fault;
pub mod faults;
pub mod frequencies;
pub mod layout;
pub mod machine;
pub mod make;
pub mod random;
pub mod record;
pub mod rows;
pub mod step;
pub mod table;
pub mod term;
pub mod types;
pub mod typing;
pub mod words;

pub use entries::{Answer, Outcome, Verdict};
use fault::Bend;

/// Loads a program file into a record.
pub fn load(file: &[u8], record: &mut [u8]) -> Verdict {
    entries::load(file, record, Bend::NONE)
}

/// Runs a record for at most the budget's steps.
pub fn run(record: &mut [u8], work: &mut [u8], budget: u32) -> Outcome {
    deep::on_deep_stack(|| entries::run(record, work, budget, Bend::NONE))
}

/// Takes a reply into a record.
pub fn reply(record: &mut [u8], work: &mut [u8], reply: &[u8]) -> Verdict {
    deep::on_deep_stack(|| entries::reply(record, work, reply, Bend::NONE))
}
