//! The library seen from outside, with input of every kind that it must refuse: each verdict and each byte is compared
//! with the independent evaluator.

mod buffers;
mod bytes;
mod cost;
mod counts;
mod header;
mod limits;
mod records;
mod refusals;
mod sheet;
#[path = "../../../../bench/src/stack.rs"]
mod stack;
mod stacks;

use evaluator::random::Random;
use evaluator::Outcome;
#[cfg(feature = "run")]
use tca::entries::run;
use tca::entries::{load, reply, RunAnswer, Verdict};
use tca::{RECORD_BYTES, WORK_BYTES};

/// Document 01's first case as a file, byte by byte: if true then str 7 else str 8.
fn document_file() -> Vec<u8> {
    let mut file = vec![0x54, 0x43, 0x41, 0x01, 0x00, 0x00, 0x02, 0x00, 0x04, 0x00];
    file.push(0x01);
    file.extend([0; 35]);
    file.push(0x03);
    file.extend([0; 35]);
    file.extend([0x0A, 0x00, 0x00, 0x00, 0x00, 0x00, 0x00, 0x00]);
    file.extend([0x03, 0x00, 0x01, 0x00, 0x00, 0x00, 0x00, 0x00]);
    file.extend([0x01, 0x00, 0x00, 0x00, 0x07, 0x00, 0x00, 0x00]);
    file.extend([0x01, 0x00, 0x00, 0x00, 0x08, 0x00, 0x00, 0x00]);
    assert_eq!(file.len(), 114);
    assert_eq!(file, include_bytes!("../../../../crates/bench/stdin"));
    file
}

/// Bytes of no meaning, the same at every run.
fn old_bytes(length: usize) -> Vec<u8> {
    let mut bytes = vec![0; length];
    Random::new(114).fill(&mut bytes);
    bytes
}

/// A verdict as numbers.
fn numbers(verdict: Verdict) -> (u32, u32) {
    (verdict.refusal, verdict.place)
}

/// Two records of the same old content, one lent to the library and one to the evaluator.
struct Judges {
    old: Vec<u8>,
    library: Vec<u8>,
    evaluator: Vec<u8>,
}

impl Judges {
    fn new() -> Judges {
        Judges::over(old_bytes(RECORD_BYTES))
    }

    fn over(old: Vec<u8>) -> Judges {
        Judges { library: old.clone(), evaluator: old.clone(), old }
    }

    /// What both say of a file. Their verdicts and records are equal, and a refusal has changed no byte.
    fn agree(&mut self, file: &[u8], words: impl Fn() -> String) -> (u32, u32) {
        let said = numbers(load(file, &mut self.library));
        let wanted = evaluator::load(file, &mut self.evaluator);
        assert_eq!(said, (wanted.refusal, wanted.place), "library and evaluator on {}", words());
        if said == (0, 0) {
            assert!(self.library == self.evaluator, "the records of {}", words());
            self.library.copy_from_slice(&self.old);
            self.evaluator.copy_from_slice(&self.old);
        } else {
            assert!(self.library == self.old, "the record after the refusal of {}", words());
        }
        said
    }
}

/// What a run gives, as numbers: refusal, answer, sent, steps.
type Ran = (u32, u32, u32, u32);

/// Without the library's run the evaluator makes its runs: they bring records to where replies are taken.
#[cfg(not(feature = "run"))]
fn run(record: &mut [u8], work: &mut [u8], budget: u32) -> RunAnswer {
    match evaluator::run(record, work, budget) {
        Outcome::Refused(verdict) => RunAnswer { refusal: verdict.refusal, answer: 0, sent: 0, steps: 0 },
        Outcome::Ran { answer, sent, steps } => RunAnswer { refusal: 0, answer: answer as u32, sent, steps },
    }
}

/// A record and a work buffer lent to the library, and the same to the evaluator.
struct Pair {
    library: [Vec<u8>; 2],
    evaluator: [Vec<u8>; 2],
}

impl Pair {
    /// Both have this record, and a work buffer of old content.
    fn of(record: Vec<u8>) -> Pair {
        Pair::over(record, old_bytes(WORK_BYTES))
    }

    fn over(record: Vec<u8>, work: Vec<u8>) -> Pair {
        Pair { library: [record.clone(), work.clone()], evaluator: [record, work] }
    }

    /// A file loaded by both.
    fn loaded(file: &[u8]) -> Pair {
        let mut record = old_bytes(RECORD_BYTES);
        assert_eq!(numbers(load(file, &mut record)), (0, 0));
        let mut wanted = old_bytes(RECORD_BYTES);
        assert_eq!(evaluator::load(file, &mut wanted).refusal, 0);
        assert!(record == wanted);
        Pair::of(record)
    }

    /// What both say of a run. All bytes are equal; a refusal has changed none; the work buffer is zero unless a call was
    /// sent.
    fn run(&mut self, budget: u32) -> Ran {
        let old = self.library.clone();
        let [record, work] = &mut self.library;
        let RunAnswer { refusal, answer, sent, steps } = run(record, work, budget);
        let [record, work] = &mut self.evaluator;
        let wanted = match evaluator::run(record, work, budget) {
            Outcome::Refused(verdict) => (verdict.refusal, 0, 0, 0),
            Outcome::Ran { answer, sent, steps } => (0, answer as u32, sent, steps),
        };
        assert_eq!((refusal, answer, sent, steps), wanted, "library and evaluator");
        assert!(self.library == self.evaluator, "the buffers after a run");
        assert!(refusal == 0 || self.library == old, "the buffers after a refusal");
        assert!(refusal != 0 || answer == 2 || is_zero(&self.library[1]), "the work buffer after no send");
        wanted
    }

    /// What both say of a reply. All bytes are equal; a refusal has changed none; else the work buffer is zero.
    fn reply(&mut self, bytes: &[u8]) -> (u32, u32) {
        let old = self.library.clone();
        let [record, work] = &mut self.library;
        let said = numbers(reply(record, work, bytes));
        let [record, work] = &mut self.evaluator;
        let wanted = evaluator::reply(record, work, bytes);
        assert_eq!(said, (wanted.refusal, wanted.place), "library and evaluator");
        assert!(self.library == self.evaluator, "the buffers after a reply");
        assert!(said == (0, 0) || self.library == old, "the buffers after a refusal");
        assert!(said != (0, 0) || is_zero(&self.library[1]), "the work buffer after a reply");
        said
    }

    /// The record's row count.
    fn rows(&self) -> u16 {
        evaluator::layout::u16_at(&self.library[0], evaluator::layout::RECORD_ROW_COUNT)
    }
}

fn is_zero(bytes: &[u8]) -> bool {
    bytes.iter().all(|&byte| byte == 0)
}
