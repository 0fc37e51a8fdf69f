//! The bench runner: one program file in, one line out.

use crate::layout::{u16_at, RECORD_BYTES, RECORD_ROW_COUNT, WORK_BYTES};
use crate::{load, run, Outcome};

/// "reads a program file from standard input, loads it, runs once with budget 1,000 and prints `answer steps rows`, or
/// `refused number place`"
pub fn bench_line(file: &[u8]) -> String {
    let mut record = vec![0; RECORD_BYTES];
    let mut work = vec![0; WORK_BYTES];
    let verdict = load(file, &mut record);
    if verdict.refusal != 0 {
        return format!("refused {} {}", verdict.refusal, verdict.place);
    }
    match run(&mut record, &mut work, 1_000) {
        Outcome::Refused(verdict) => format!("refused {} {}", verdict.refusal, verdict.place),
        Outcome::Ran { answer, steps, .. } => {
            format!("{} {} {}", answer as u32, steps, u16_at(&record, RECORD_ROW_COUNT))
        }
    }
}
