//! The comparison drivers: the same calls to two machines, stopping at the first difference in a number or a byte.

use std::fmt::{self, Write as _};

use crate::entries::{Outcome, Verdict};
use crate::layout::*;
use crate::machine::Machine;
use crate::make::files::{damaged, COUNTS};
use crate::make::kept::Kept;
use crate::make::programs::{program, tower, Program, Wish};
use crate::make::sessions::{Act, Session};
use crate::random::Random;
use crate::rows::kind;
use crate::table::{apply, file_of, leaf, let_in, list, plain, tuple, Table};

/// The buffers lent to one machine.
#[derive(Clone, Debug, PartialEq)]
pub struct Lent {
    pub record: Vec<u8>,
    pub work: Vec<u8>,
}

/// What a call gave.
#[derive(Clone, Copy, Debug, PartialEq)]
pub enum Given {
    Nothing,
    Verdict(Verdict),
    Outcome(Outcome),
}

/// The first difference between two machines, with all that is needed to meet it again.
#[derive(Debug)]
pub struct Difference {
    /// How to make the same calls again.
    pub repeat: String,
    pub names: [String; 2],
    /// The calls so far; the last one differs.
    pub acts: Vec<Act>,
    pub given: [Given; 2],
    /// Buffer, offset, and the two bytes (none where one buffer is shorter).
    pub byte: Option<(&'static str, usize, Option<u8>, Option<u8>)>,
}

impl fmt::Display for Difference {
    fn fmt(&self, f: &mut fmt::Formatter) -> fmt::Result {
        writeln!(f, "DIFFERENCE between {} and {}", self.names[0], self.names[1])?;
        writeln!(f, "repeat with: {}", self.repeat)?;
        for (k, act) in self.acts.iter().enumerate() {
            writeln!(f, "call {k}: {}", act_words(act))?;
        }
        for (name, given) in self.names.iter().zip(&self.given) {
            writeln!(f, "{name} gave {given:?}")?;
        }
        match &self.byte {
            None => writeln!(f, "the buffers are equal"),
            Some((buffer, at, left, right)) => {
                writeln!(f, "first differing byte: {buffer} offset {at}: {left:02x?} and {right:02x?}")
            }
        }
    }
}

fn act_words(act: &Act) -> String {
    match act {
        Act::SetRecord(bytes) => format!("the record becomes {} bytes: {}", bytes.len(), hex(bytes)),
        Act::SetWork(bytes) => format!("the work buffer becomes {} bytes: {}", bytes.len(), hex(bytes)),
        Act::Load(file) => format!("load {} bytes: {}", file.len(), hex(file)),
        Act::Run(budget) => format!("run, budget {budget}"),
        Act::Reply(reply) => format!("reply {} bytes: {}", reply.len(), hex(reply)),
    }
}

/// Bytes in hex; sixteen or more equal ones in a row are written once with their count, as ` 00*count `.
pub fn hex(bytes: &[u8]) -> String {
    let mut text = String::new();
    let mut at = 0;
    while at < bytes.len() {
        let equal = bytes[at..].iter().take_while(|&&byte| byte == bytes[at]).count();
        if equal >= 16 {
            let _ = write!(text, " {:02x}*{equal} ", bytes[at]);
            at += equal;
        } else {
            let _ = write!(text, "{:02x}", bytes[at]);
            at += 1;
        }
    }
    text
}

/// Does one act on one machine.
pub fn perform(machine: &mut dyn Machine, act: &Act, lent: &mut Lent) -> Given {
    match act {
        Act::SetRecord(bytes) => {
            lent.record.clone_from(bytes);
            Given::Nothing
        }
        Act::SetWork(bytes) => {
            lent.work.clone_from(bytes);
            Given::Nothing
        }
        Act::Load(file) => Given::Verdict(machine.load(file, &mut lent.record)),
        Act::Run(budget) => Given::Outcome(machine.run(&mut lent.record, &mut lent.work, *budget)),
        Act::Reply(reply) => Given::Verdict(machine.reply(&mut lent.record, &mut lent.work, reply)),
    }
}

/// The first byte in which two machines' buffers differ.
fn first_difference(left: &Lent, right: &Lent) -> Option<(&'static str, usize, Option<u8>, Option<u8>)> {
    let buffers = [("record", &left.record, &right.record), ("work buffer", &left.work, &right.work)];
    buffers.into_iter().filter(|(_, left, right)| left != right).find_map(|(name, left, right)| {
        let at = (0..left.len().max(right.len())).find(|&at| left.get(at) != right.get(at))?;
        Some((name, at, left.get(at).copied(), right.get(at).copied()))
    })
}

/// Gives one session to two machines.
pub fn compare_session(seed: u64, number: u64, machines: [&mut dyn Machine; 2]) -> Result<usize, Box<Difference>> {
    let [left, right] = machines;
    let mut session = Session::new(seed, number);
    let mut lents = [Lent { record: vec![], work: vec![] }, Lent { record: vec![], work: vec![] }];
    let mut acts = Vec::new();
    while let Some(act) = session.next(&lents[0].record, &lents[0].work) {
        let given = [perform(left, &act, &mut lents[0]), perform(right, &act, &mut lents[1])];
        acts.push(act);
        if given[0] != given[1] || lents[0] != lents[1] {
            return Err(Box::new(Difference {
                repeat: format!("compare-sessions --seed {seed} --from {number} --count 1"),
                names: [left.name(), right.name()],
                acts,
                given,
                byte: first_difference(&lents[0], &lents[1]),
            }));
        }
    }
    Ok(acts.len())
}

/// How many loads are made from one base program.
pub const LOADS_A_GROUP: u64 = 64;

/// The loads of one numbered group: a valid program, then the same damaged again and again, into records of any length
/// and any old content.
pub fn group_acts(seed: u64, group: u64) -> Vec<Act> {
    let mut random = Random::numbered(seed, group);
    let base = base_program(&mut random);
    let mut acts = vec![Act::SetRecord(old_record(&mut random)), Act::Load(base.file())];
    for _ in 1..LOADS_A_GROUP {
        if random.one_in(12) {
            acts.push(Act::SetRecord(old_record(&mut random)));
        }
        let file = if random.one_in(20) { base.file() } else { damaged(&mut random, &base) };
        if random.one_in(50) {
            let length = *random.pick(&[0, 1, RECORD_BYTES - 1, RECORD_BYTES + 1, WORK_BYTES]);
            acts.push(Act::SetRecord(vec![7; length]));
            acts.push(Act::Load(file));
            acts.push(Act::SetRecord(old_record(&mut random)));
        } else {
            acts.push(Act::Load(file));
        }
    }
    acts
}

/// Many small programs, few large ones.
fn base_program(random: &mut Random) -> Program {
    if random.one_in(60) {
        return tower(random.between(1, 12));
    }
    let rows = match random.below(40) {
        0 => random.between(MAX_PROGRAM_ROWS - 3, MAX_PROGRAM_ROWS),
        1 => random.between(400, MAX_PROGRAM_ROWS),
        2..=5 => random.between(100, 400),
        6..=15 => random.between(30, 100),
        _ => random.between(1, 30),
    };
    program(random, Wish { rows, most: MAX_PROGRAM_ROWS, futures: false })
}

/// A record of the right length, with zeros or old content.
fn old_record(random: &mut Random) -> Vec<u8> {
    let mut record = vec![0; RECORD_BYTES];
    if random.one_in(2) {
        random.fill(&mut record);
    }
    record
}

/// A load that is always tried: what it is, and the file.
pub struct FixedLoad {
    pub words: String,
    pub file: Vec<u8>,
}

/// The fixed loads: every cut and every changed byte of two small files, counts at and beyond the limits, full files,
/// and the towers of doubled types.
pub fn fixed_loads() -> Vec<FixedLoad> {
    let mut loads = Vec::new();
    for (name, file) in [("if", small_if()), ("let p", small_let())] {
        loads.push(FixedLoad { words: format!("small file `{name}`"), file: file.clone() });
        for length in 0..file.len() {
            loads.push(FixedLoad { words: format!("`{name}` cut to {length} bytes"), file: file[..length].to_vec() });
        }
        for at in 0..file.len() {
            for change in 1..=255 {
                let mut changed = file.clone();
                changed[at] ^= change;
                loads.push(FixedLoad {
                    words: format!("`{name}` with byte {at} changed by {change:02x}"),
                    file: changed,
                });
            }
        }
        for types in COUNTS {
            for rows in COUNTS {
                let mut changed = file.clone();
                put_u16(&mut changed, 6, types);
                put_u16(&mut changed, 8, rows);
                loads.push(FixedLoad { words: format!("`{name}` claiming {types} types, {rows} rows"), file: changed });
            }
        }
    }
    let can_be_full = |count: &u16| *count <= 1_025;
    for types in COUNTS.into_iter().filter(can_be_full) {
        for rows in COUNTS.into_iter().filter(can_be_full) {
            let file = full_file(usize::from(types), usize::from(rows));
            loads.push(FixedLoad { words: format!("{types} types and {rows} rows in full"), file });
        }
    }
    loads
}

/// The towers of doubled types: a ground test that goes down through every part anew would not return from the last.
pub fn tower_loads() -> Vec<FixedLoad> {
    let heights = [1, 2, 10, 16, 20, 24, MAX_TYPES - 2, MAX_TYPES - 1];
    let words = |height| format!("a tower of {height} doubled tuple types below a foreign function");
    heights.into_iter().map(|height| FixedLoad { words: words(height), file: tower(height).file() }).collect()
}

/// The bench sheet's first case.
pub fn small_if() -> Vec<u8> {
    let mut table = Table::default();
    let (str, bool) = (table.str(), table.bool());
    let branches = [leaf(kind::TRUE, bool, 0), leaf(kind::STR, str, 7), leaf(kind::STR, str, 8)];
    file_of(&table.rows, &plain(kind::IF, str, &branches))
}

/// The bench sheet's second case: let p = locate() in {p, p}.
pub fn small_let() -> Vec<u8> {
    let mut table = Table::default();
    let str = table.str();
    table.bool();
    let function = table.foreign(&[], str);
    let pair = table.tuple(&[str, str]);
    let p = leaf(kind::VARIABLE, str, 7);
    let bound = apply(str, leaf(kind::FOREIGN, function, 900), &[]);
    file_of(&table.rows, &let_in(pair, 7, bound, tuple(pair, &[p.clone(), p])))
}

/// A file with exactly so many types and rows: sound if both are within the limits and the rows can be made.
fn full_file(types: usize, rows: usize) -> Vec<u8> {
    let mut table = Table::default();
    let bool = table.bool();
    let bools = table.list(bool);
    let one = table.tuple(&[bools]);
    let mut last = one;
    while table.rows.len() < types {
        last = table.list(last);
    }
    let truths = |count: usize| list(bools, &vec![leaf(kind::TRUE, bool, 0); count]);
    let made = match rows {
        0 => vec![],
        1 => leaf(kind::NIL, bools, 0),
        odd if odd % 2 == 1 => truths(odd / 2),
        even => tuple(one, &[truths((even - 1) / 2)]),
    };
    file_of(&table.rows[..types], &made)
}

/// Gives one load to two machines.
pub fn compare_load(
    act: &Act,
    lents: &mut [Lent; 2],
    machines: &mut [&mut dyn Machine; 2],
    repeat: &dyn Fn() -> String,
) -> Result<Given, Box<Difference>> {
    let old = if matches!(act, Act::Load(_)) { lents[0].record.clone() } else { vec![] };
    let [left, right] = machines;
    let given = [perform(&mut **left, act, &mut lents[0]), perform(&mut **right, act, &mut lents[1])];
    if given[0] == given[1] && lents[0] == lents[1] {
        return Ok(given[0]);
    }
    Err(Box::new(Difference {
        repeat: repeat(),
        names: [left.name(), right.name()],
        acts: vec![Act::SetRecord(old), act.clone()],
        given,
        byte: first_difference(&lents[0], &lents[1]),
    }))
}

/// The budget of a run on a changed record.
const CHANGED_BUDGET: u32 = 7;

/// A kept record with one byte changed, lent to two machines for a run and, afresh, for a reply. Gives how many of the two
/// calls were refused.
pub fn compare_changed(
    kept: &Kept,
    at: usize,
    value: u8,
    lents: &mut [Lent; 2],
    machines: &mut [&mut dyn Machine; 2],
) -> Result<u64, Box<Difference>> {
    let mut refused = 0;
    for act in [Act::Run(CHANGED_BUDGET), Act::Reply(kept.reply.clone())] {
        for lent in lents.iter_mut() {
            lent.record.copy_from_slice(&kept.record);
            lent.record[at] = value;
            lent.work.fill(OLD_WORK);
        }
        let [left, right] = &mut *machines;
        let given = [perform(&mut **left, &act, &mut lents[0]), perform(&mut **right, &act, &mut lents[1])];
        if given[0] != given[1] || lents[0] != lents[1] {
            let mut changed = kept.record.clone();
            changed[at] = value;
            return Err(Box::new(Difference {
                repeat: format!("compare-records --record {} --from {at} --count 1 --all", kept.name),
                names: [left.name(), right.name()],
                acts: vec![Act::SetRecord(changed), Act::SetWork(vec![OLD_WORK; WORK_BYTES]), act],
                given,
                byte: first_difference(&lents[0], &lents[1]),
            }));
        }
        refused += u64::from(is_refusal(given[0]));
    }
    Ok(refused)
}

/// What the work buffer holds before a call on a changed record.
const OLD_WORK: u8 = 0x5A;

fn is_refusal(given: Given) -> bool {
    matches!(given, Given::Verdict(Verdict { refusal: 1.., .. }) | Given::Outcome(Outcome::Refused(_)))
}
