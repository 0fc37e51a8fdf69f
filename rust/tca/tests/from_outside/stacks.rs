//! The stack that each entry uses on the deepest terms: 64 KiB at most.

use crate::stack::used_by;
use evaluator::layout::{MAX_PROGRAM_ROWS, MAX_ROWS};
use evaluator::make::kept::three_records;
use evaluator::make::nests::nests;
use evaluator::table::reply_of;
#[cfg(feature = "run")]
use tca::entries::run;
use tca::entries::{load, reply};
use tca::{RECORD_BYTES, WORK_BYTES};

const MOST: usize = 64 * 1024;

/// The stack of a run, with a budget.
#[cfg(feature = "run")]
fn of_run(record: &[u8], budget: u32) -> usize {
    let (mut record, mut work) = (record.to_vec(), vec![0; WORK_BYTES]);
    used_by(|| assert_eq!(run(&mut record, &mut work, budget).refusal, 0))
}

/// The stack of an accepted reply.
fn of_reply(record: &[u8], bytes: &[u8]) -> usize {
    let (mut record, mut work) = (record.to_vec(), vec![0; WORK_BYTES]);
    used_by(|| assert_eq!(reply(&mut record, &mut work, bytes).refusal, 0))
}

#[test]
fn a_load_of_the_deepest_programs_uses_little_stack() {
    for nested in nests(MAX_PROGRAM_ROWS) {
        let (file, mut record) = (nested.file(), vec![0; RECORD_BYTES]);
        let used = used_by(|| assert_eq!(load(&file, &mut record).refusal, 0));
        assert!(used <= MOST, "{used} bytes on {}", nested.name);
    }
}

#[test]
#[cfg(feature = "run")]
fn a_run_of_the_deepest_terms_uses_little_stack() {
    for nested in nests(MAX_ROWS) {
        for record in [nested.record(), nested.waiting().0] {
            for budget in [0, 1, 2_000] {
                let used = of_run(&record, budget);
                assert!(used <= MOST, "{used} bytes on {}, budget {budget}", nested.name);
            }
        }
    }
}

#[test]
fn a_reply_to_the_deepest_terms_uses_little_stack() {
    for nested in nests(MAX_ROWS) {
        let (record, value) = nested.waiting();
        let used = of_reply(&record, &reply_of(1, &[value]));
        assert!(used <= MOST, "{used} bytes on {}", nested.name);
    }
}

#[test]
fn the_largest_records_use_little_stack() {
    for kept in three_records() {
        #[cfg(feature = "run")]
        assert!(of_run(&kept.record, 1_000) <= MOST, "a run of the {} record", kept.name);
        let (mut record, mut work) = (kept.record.clone(), vec![0; WORK_BYTES]);
        let used = used_by(|| _ = reply(&mut record, &mut work, &kept.reply));
        assert!(used <= MOST, "a reply to the {} record", kept.name);
    }
}
