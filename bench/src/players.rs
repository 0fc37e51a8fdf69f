//! Who makes the calls: the library, the independent evaluator, and the limit, which only reads and copies.

use std::hint::black_box;

use crate::cases::{Call, Job};
use evaluator::layout::{u16_at, RECORD_ROWS};
#[cfg(feature = "run")]
use tca::entries::RunAnswer;
use tca::entries::{self, Verdict};
use tca::{RECORD_BYTES, WORK_BYTES};

/// The buffers lent to a call.
#[derive(Clone, PartialEq)]
pub struct Lent {
    pub record: Vec<u8>,
    pub work: Vec<u8>,
}

impl Lent {
    pub fn new() -> Lent {
        Lent { record: vec![0; RECORD_BYTES], work: vec![0; WORK_BYTES] }
    }

    /// The buffers as a job finds them.
    pub fn prepare(&mut self, job: &Job) {
        self.record.copy_from_slice(&job.record);
        self.work.fill(0x5A);
    }
}

/// What a call gave, as numbers: refusal, place, answer, sent, steps.
pub type Given = [u32; 5];

pub fn library(job: &Job, lent: &mut Lent) -> Given {
    let verdict = |Verdict { refusal, place }| [refusal, place, 0, 0, 0];
    match &job.call {
        Call::Load(file) => verdict(entries::load(black_box(file), &mut lent.record)),
        #[cfg(not(feature = "run"))]
        Call::Run(_) => unreachable!("without the library's run none is measured"),
        #[cfg(feature = "run")]
        Call::Run(budget) => {
            let RunAnswer { refusal, answer, sent, steps } =
                entries::run(&mut lent.record, &mut lent.work, black_box(*budget));
            [refusal, 0, answer, sent, steps]
        }
        Call::Reply(reply) => verdict(entries::reply(&mut lent.record, &mut lent.work, black_box(reply))),
    }
}

pub fn evaluator(job: &Job, lent: &mut Lent) -> Given {
    let verdict = |verdict: evaluator::Verdict| [verdict.refusal, verdict.place, 0, 0, 0];
    match &job.call {
        Call::Load(file) => verdict(evaluator::load(black_box(file), &mut lent.record)),
        Call::Run(budget) => match evaluator::run(&mut lent.record, &mut lent.work, black_box(*budget)) {
            evaluator::Outcome::Refused(given) => verdict(given),
            evaluator::Outcome::Ran { answer, sent, steps } => [0, 0, answer as u32, sent, steps],
        },
        Call::Reply(reply) => verdict(evaluator::reply(&mut lent.record, &mut lent.work, black_box(reply))),
    }
}

/// The least that a call can do: one read of all that it is lent (a record must be looked at whole, since its unused space
/// must be zero), and one copy of what it changes, for a run step by step.
pub struct Limit {
    /// From and to in the record, a range for each change.
    copies: Vec<(usize, usize)>,
    clears_work: bool,
    source: Vec<u8>,
}

impl Limit {
    pub fn of(job: &Job) -> Limit {
        let mut lent = Lent::new();
        lent.prepare(job);
        let [refusal, _, _, _, steps] = evaluator(job, &mut lent);
        let mut copies = Vec::new();
        match job.call {
            _ if refusal != 0 => {}
            Call::Run(_) => {
                let mut now = Lent::new();
                now.prepare(job);
                for _ in 0..steps {
                    let before = now.record.clone();
                    evaluator::run(&mut now.record, &mut now.work, 1);
                    copies.extend(changed(&before, &now.record));
                }
            }
            Call::Load(_) => copies.push((0, RECORD_BYTES)),
            Call::Reply(_) => copies.extend(changed(&job.record, &lent.record)),
        }
        let clears_work = refusal == 0 && !matches!(job.call, Call::Load(_));
        Limit { copies, clears_work, source: lent.record }
    }

    pub fn play(&self, job: &Job, lent: &mut Lent) -> Given {
        match &job.call {
            Call::Load(file) => read(file),
            Call::Run(_) => read(&lent.record),
            Call::Reply(reply) => {
                read(&lent.record);
                read(reply);
            }
        }
        for &(from, to) in &self.copies {
            lent.record[from..to].copy_from_slice(black_box(&self.source[from..to]));
            black_box(&mut lent.record);
        }
        if self.clears_work {
            lent.work.fill(0);
            black_box(&mut lent.work);
        }
        [0; 5]
    }
}

/// Looks at every byte, eight at a time.
fn read(bytes: &[u8]) {
    let words = black_box(bytes).chunks_exact(8);
    black_box(words.fold(0, |all, word| all | u64::from_le_bytes(word.try_into().expect("eight bytes"))));
}

/// The rows from the first changed one to the last.
fn changed(before: &[u8], after: &[u8]) -> Option<(usize, usize)> {
    let rows = |record: &[u8]| usize::from(u16_at(record, 8));
    let end = RECORD_ROWS + 8 * rows(before).max(rows(after));
    let differs = |&at: &usize| before[at] != after[at];
    let first = (RECORD_ROWS..end).find(differs)?;
    let last = (RECORD_ROWS..end).rfind(differs)?;
    Some((first, last + 1))
}
