//! Sessions: sequences of calls in which loads, runs, replies and damage follow each other as in a busy stall.

use crate::entries::{Answer, Outcome};
use crate::layout::*;
use crate::make::files::damaged;
use crate::make::programs::{program, Program, Wish};
use crate::make::records::{damage, sound, WAYS};
use crate::make::replies::reply_for;
use crate::random::Random;
use crate::rows::kind;

/// One thing that happens to both machines alike.
#[derive(Clone, Debug)]
pub enum Act {
    /// The lent record becomes these bytes (of any length).
    SetRecord(Vec<u8>),
    /// The lent work buffer becomes these bytes (of any length).
    SetWork(Vec<u8>),
    Load(Vec<u8>),
    Run(u32),
    Reply(Vec<u8>),
}

/// Makes a session act by act; each act may look at the buffers as they stand.
pub struct Session {
    random: Random,
    left: usize,
    program: Option<Program>,
    waiting: Vec<Act>,
    last_reply: Option<Vec<u8>>,
}

impl Session {
    /// The numbered session of a seed.
    pub fn new(seed: u64, number: u64) -> Session {
        let mut random = Random::numbered(seed, number);
        let mut waiting = Vec::new();
        let mut old_work = vec![0; WORK_BYTES];
        if random.one_in(3) {
            random.fill(&mut old_work[..64]);
            old_work[WORK_BYTES - 1] = 7;
        }
        let mut old_record = vec![0; RECORD_BYTES];
        if random.one_in(6) {
            random.fill(&mut old_record);
        }
        waiting.push(Act::SetWork(old_work));
        waiting.push(Act::SetRecord(old_record));
        let mut made = None;
        if random.one_in(8) {
            let wish = wish(&mut random);
            let base = program(&mut random, wish);
            for _ in 0..20 {
                waiting.push(Act::Load(damaged(&mut random, &base)));
            }
            waiting.push(Act::Load(base.file()));
            made = Some(base);
        } else if random.below(5) < 3 {
            let wish = wish(&mut random);
            let made_program = program(&mut random, wish);
            if random.one_in(4) {
                waiting.push(Act::Load(damaged(&mut random, &made_program)));
            } else {
                waiting.push(Act::Load(made_program.file()));
            }
            made = Some(made_program);
        } else {
            waiting.push(Act::SetRecord(sound(&mut random)));
        }
        waiting.reverse();
        let left = if random.one_in(16) { random.between(8, 40) } else { random.between(1, 7) };
        Session { random, left, program: made, waiting, last_reply: None }
    }

    /// The next act, seen from the buffers as the machines have left them.
    pub fn next(&mut self, record: &[u8], work: &[u8]) -> Option<Act> {
        if let Some(act) = self.waiting.pop() {
            return Some(act);
        }
        if self.left == 0 {
            return None;
        }
        self.left -= 1;
        let random = &mut self.random;
        let nothing_to_do = is_plain_value(record) || !record.starts_with(RECORD_MARK);
        if nothing_to_do && random.below(3) > 0 {
            return Some(self.another_start());
        }
        let open = record.len() == RECORD_BYTES && u16_at(record, RECORD_OPEN_COUNT) > 0;
        Some(match random.below(20) {
            0 => self.with_damaged_record(record),
            1 if random.one_in(3) => self.with_other_lengths(record, work),
            2 if random.one_in(2) => match &self.program {
                Some(program) => Act::Load(damaged(random, program)),
                None => Act::Run(0),
            },
            3..=8 if open => self.reply(record),
            9 => self.reply(record),
            // The same reply again: if it was accepted, its number is closed now.
            11 if self.last_reply.is_some() => Act::Reply(self.last_reply.take().unwrap_or_default()),
            10 => {
                let mut work = work.to_vec();
                if !work.is_empty() {
                    let at = random.below(work.len());
                    work[at] ^= 0xFF;
                }
                Act::SetWork(work)
            }
            _ => Act::Run(budget(random, record)),
        })
    }

    /// A reply to the record as it stands, which may come again.
    fn reply(&mut self, record: &[u8]) -> Act {
        let reply = reply_for(&mut self.random, record);
        self.last_reply = Some(reply.clone());
        Act::Reply(reply)
    }

    /// Another program or record, once there is nothing left to do.
    fn another_start(&mut self) -> Act {
        if self.random.one_in(3) {
            return Act::SetRecord(sound(&mut self.random));
        }
        let wish = wish(&mut self.random);
        let program = program(&mut self.random, wish);
        let file = program.file();
        self.program = Some(program);
        Act::Load(file)
    }

    /// A damaged record, a call on it, and the sound one back.
    fn with_damaged_record(&mut self, record: &[u8]) -> Act {
        if record.len() != RECORD_BYTES {
            return Act::SetRecord(sound(&mut self.random));
        }
        let mut bad = record.to_vec();
        let sane = usize::from(u16_at(record, RECORD_TYPE_COUNT)) <= MAX_TYPES
            && (1..=MAX_ROWS).contains(&usize::from(u16_at(record, RECORD_ROW_COUNT)))
            && usize::from(u16_at(record, RECORD_OPEN_COUNT)) <= MAX_OPEN;
        if sane && record.starts_with(RECORD_MARK) {
            let way = self.random.below(WAYS.len());
            damage(&mut self.random, &mut bad, way);
        }
        self.waiting.push(Act::SetRecord(record.to_vec()));
        let call = match self.random.below(3) {
            0 => Act::Reply(reply_for(&mut self.random, record)),
            _ => Act::Run(budget(&mut self.random, &bad)),
        };
        self.waiting.push(call);
        Act::SetRecord(bad)
    }

    /// A buffer of another length, a call on it, and the right one back.
    fn with_other_lengths(&mut self, record: &[u8], work: &[u8]) -> Act {
        let random = &mut self.random;
        let other = |random: &mut Random, length: usize| *random.pick(&[0, 1, length - 1, length + 1, length / 2]);
        let call = match random.below(3) {
            0 => Act::Reply(reply_for(random, record)),
            1 => match &self.program {
                Some(program) => Act::Load(program.file()),
                None => Act::Run(1),
            },
            _ => Act::Run(budget(random, record)),
        };
        if random.one_in(2) {
            let mut changed = record.to_vec();
            changed.resize(other(random, RECORD_BYTES), 3);
            self.waiting = vec![Act::SetRecord(record.to_vec()), call];
            Act::SetRecord(changed)
        } else {
            let mut changed = work.to_vec();
            changed.resize(other(random, WORK_BYTES), 3);
            self.waiting = vec![Act::SetWork(work.to_vec()), call];
            Act::SetWork(changed)
        }
    }
}

/// Whether the term's first row shows that it is a value.
fn is_plain_value(record: &[u8]) -> bool {
    let first = record.get(RECORD_ROWS).copied().unwrap_or(0);
    matches!(first, kind::STR..=kind::FALSE | kind::NATIVE | kind::FOREIGN | kind::NIL | kind::ZIP)
}

/// Mostly small programs, sometimes as many rows as a file can hold.
pub fn wish(random: &mut Random) -> Wish {
    let rows = match random.below(40) {
        0 => random.between(MAX_PROGRAM_ROWS - 3, MAX_PROGRAM_ROWS),
        1 => random.between(200, MAX_PROGRAM_ROWS),
        2..=6 => random.between(30, 200),
        _ => random.between(1, 40),
    };
    Wish { rows, most: MAX_PROGRAM_ROWS, futures: false }
}

/// Budgets small and large; the largest of all where the run ends.
fn budget(random: &mut Random, record: &[u8]) -> u32 {
    match random.below(28) {
        0..=2 => 0,
        3..=8 => 1,
        9..=12 => random.between(2, 5) as u32,
        13..=15 => 7,
        16..=23 => random.between(5, 30) as u32,
        24 => 100,
        25 => 200,
        26 if random.one_in(3) => 1_000,
        27 if ends(record) => u32::MAX,
        _ => 20,
    }
}

/// Whether a run comes to another end than its budget's, soon.
fn ends(record: &[u8]) -> bool {
    const SOON: u32 = 300;
    let outcome = crate::run(&mut record.to_vec(), &mut vec![0; WORK_BYTES], SOON);
    !matches!(outcome, Outcome::Ran { answer: Answer::Budget, .. })
}
