//! What can be compared: anything with load, run and reply on raw bytes; the evaluator, its bent copies, the library.

use crate::deep::on_deep_stack;
use crate::entries::{self, Outcome, Verdict};
use crate::fault::{Bend, Fault};

/// A machine for attachment routines, seen only by its numbers and by the bytes of the buffers lent to it.
pub trait Machine {
    fn name(&self) -> String;

    fn load(&mut self, file: &[u8], record: &mut [u8]) -> Verdict;

    fn run(&mut self, record: &mut [u8], work: &mut [u8], budget: u32) -> Outcome;

    fn reply(&mut self, record: &mut [u8], work: &mut [u8], reply: &[u8]) -> Verdict;
}

/// The evaluator, true or bent by one fault.
#[derive(Clone, Copy, Debug)]
pub struct Evaluator {
    bend: Bend,
}

/// More steps than any run makes that ends.
const BENT_BUDGET: u32 = 10_000;

impl Evaluator {
    pub const TRUE: Evaluator = Evaluator { bend: Bend::NONE };

    pub fn bent(fault: Fault) -> Evaluator {
        Evaluator { bend: Bend::by(fault) }
    }
}

impl Machine for Evaluator {
    fn name(&self) -> String {
        match self.bend.fault() {
            None => "evaluator".to_string(),
            Some(fault) => format!("{fault:?}"),
        }
    }

    fn load(&mut self, file: &[u8], record: &mut [u8]) -> Verdict {
        entries::load(file, record, self.bend)
    }

    fn run(&mut self, record: &mut [u8], work: &mut [u8], budget: u32) -> Outcome {
        let bend = self.bend;
        // A bent copy may go on for ever where the true one comes to an end.
        let budget = if bend.fault().is_some() { budget.min(BENT_BUDGET) } else { budget };
        on_deep_stack(|| entries::run(record, work, budget, bend))
    }

    fn reply(&mut self, record: &mut [u8], work: &mut [u8], reply: &[u8]) -> Verdict {
        let bend = self.bend;
        on_deep_stack(|| entries::reply(record, work, reply, bend))
    }
}

/// The proved library, through its C entries. Without the feature `run` the evaluator makes its runs, so that replies meet
/// records in mid-run.
#[cfg(feature = "library")]
pub mod library {
    use super::*;
    #[cfg(feature = "run")]
    use crate::words::ANSWERS;

    #[repr(C)]
    struct CVerdict {
        refusal: u32,
        place: u32,
    }

    #[cfg(feature = "run")]
    #[repr(C)]
    struct CRunAnswer {
        refusal: u32,
        answer: u32,
        sent: u32,
        steps: u32,
    }

    extern "C" {
        fn tca_load(file_ptr: *const u8, file_len: usize, record_ptr: *mut u8, record_len: usize) -> CVerdict;

        #[cfg(feature = "run")]
        fn tca_run(
            record_ptr: *mut u8,
            record_len: usize,
            work_ptr: *mut u8,
            work_len: usize,
            budget: u32,
        ) -> CRunAnswer;

        fn tca_reply(
            record_ptr: *mut u8,
            record_len: usize,
            work_ptr: *mut u8,
            work_len: usize,
            reply_ptr: *const u8,
            reply_len: usize,
        ) -> CVerdict;
    }

    pub struct Library;

    // In each entry's call: the pointers come from slices of the stated lengths that stay lent for the whole call, and
    // slices lent to be written share no byte.
    impl Machine for Library {
        fn name(&self) -> String {
            let runs = if cfg!(feature = "run") { "" } else { " (its runs made by the evaluator)" };
            format!("library{runs}")
        }

        fn load(&mut self, file: &[u8], record: &mut [u8]) -> Verdict {
            // SAFETY: as said above.
            let verdict = unsafe { tca_load(file.as_ptr(), file.len(), record.as_mut_ptr(), record.len()) };
            Verdict { refusal: verdict.refusal, place: verdict.place }
        }

        #[cfg(not(feature = "run"))]
        fn run(&mut self, record: &mut [u8], work: &mut [u8], budget: u32) -> Outcome {
            let mut evaluator = Evaluator::TRUE;
            evaluator.run(record, work, budget)
        }

        #[cfg(feature = "run")]
        fn run(&mut self, record: &mut [u8], work: &mut [u8], budget: u32) -> Outcome {
            // SAFETY: as said above.
            let given = unsafe { tca_run(record.as_mut_ptr(), record.len(), work.as_mut_ptr(), work.len(), budget) };
            let CRunAnswer { refusal, answer: number, sent, steps } = given;
            let known = ANSWERS.iter().find(|(answer, _)| *answer as u32 == number);
            match (refusal, known) {
                (0, Some(&(answer, _))) => Outcome::Ran { answer, sent, steps },
                (1.., _) if (number, sent, steps) == (0, 0, 0) => Outcome::Refused(Verdict { refusal, place: 0 }),
                // What no run gives differs from all that one gives.
                _ => Outcome::Refused(Verdict { refusal, place: u32::MAX }),
            }
        }

        fn reply(&mut self, record: &mut [u8], work: &mut [u8], reply: &[u8]) -> Verdict {
            // SAFETY: as said above.
            let verdict = unsafe {
                tca_reply(record.as_mut_ptr(), record.len(), work.as_mut_ptr(), work.len(), reply.as_ptr(), reply.len())
            };
            Verdict { refusal: verdict.refusal, place: verdict.place }
        }
    }
}
