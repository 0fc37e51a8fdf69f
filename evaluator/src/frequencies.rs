//! How often each answer and refusal comes from the makers' input, at how many places, and from which kinds of rows.

use std::collections::{BTreeMap, BTreeSet};
use std::io::{self, Write};

use crate::compare::{fixed_loads, group_acts, perform, Given, Lent};
use crate::entries::{Outcome, Verdict};
use crate::fault::Bend;
use crate::layout::*;
use crate::machine::{Evaluator, Machine};
use crate::make::records::{damage, sound, WAYS};
use crate::make::sessions::{Act, Session};
use crate::random::Random;
use crate::record::Record;
use crate::rows::decode_rows;
use crate::step::Stepper;
use crate::term::from_rows;
use crate::words::{ANSWERS, KINDS, REFUSALS};

/// Counts what came.
#[derive(Default)]
pub struct Tally {
    /// By entry and what it gave: how often, and at which places.
    pub came: BTreeMap<(&'static str, String), (u64, BTreeSet<u32>)>,
    /// Rows of each kind in accepted programs.
    pub kinds: [u64; 20],
    /// Row counts of accepted programs.
    pub sizes: BTreeSet<usize>,
    pub steps: u64,
    /// Steps by the rule that made them.
    pub rules: BTreeMap<&'static str, u64>,
}

impl Tally {
    fn note(&mut self, entry: &'static str, words: String, place: u32) {
        let (count, places) = self.came.entry((entry, words)).or_default();
        *count += 1;
        places.insert(place);
    }

    fn verdict(&mut self, entry: &'static str, verdict: Verdict) {
        let words = REFUSALS.get(verdict.refusal as usize).unwrap_or(&"?");
        self.note(entry, format!("{:2} {words}", verdict.refusal), verdict.place);
    }

    /// Takes in what one act gave.
    pub fn take(&mut self, act: &Act, given: Given, lent: &Lent) {
        match (act, given) {
            (Act::Load(_), Given::Verdict(verdict)) => {
                self.verdict("load", verdict);
                if verdict.refusal == 0 {
                    let rows = usize::from(u16_at(&lent.record, RECORD_ROW_COUNT));
                    self.sizes.insert(rows);
                    for row in decode_rows(&lent.record[RECORD_ROWS..RECORD_ROWS + rows * ROW_BYTES]) {
                        self.kinds[usize::from(row.kind)] += 1;
                    }
                }
            }
            (Act::Reply(_), Given::Verdict(verdict)) => self.verdict("reply", verdict),
            (_, Given::Outcome(Outcome::Refused(verdict))) => self.verdict("run refused", verdict),
            (_, Given::Outcome(Outcome::Ran { answer, steps, .. })) => {
                let words = ANSWERS.iter().find(|(other, _)| *other == answer).map_or("?", |(_, words)| words);
                self.note("run", words.to_string(), steps);
                self.steps += u64::from(steps);
            }
            _ => {}
        }
    }
}

/// Makes sessions, fixed loads and groups of loads, and counts what the evaluator gives.
pub fn tally(seed: u64, sessions: u64, groups: u64) -> Tally {
    let mut tally = Tally::default();
    let mut machine = Evaluator::TRUE;
    let fresh = || Lent { record: vec![0; RECORD_BYTES], work: vec![0; WORK_BYTES] };
    for number in 0..sessions {
        let mut lent = fresh();
        let mut session = Session::new(seed, number);
        while let Some(act) = session.next(&lent.record, &lent.work) {
            note_act(&mut tally, &mut machine, &act, &mut lent);
        }
    }
    let mut lent = fresh();
    let fixed = if groups > 0 { fixed_loads() } else { Vec::new() };
    for load in fixed {
        note_act(&mut tally, &mut machine, &Act::Load(load.file), &mut lent);
    }
    for group in 0..groups {
        for act in group_acts(seed, group) {
            note_act(&mut tally, &mut machine, &act, &mut lent);
        }
    }
    tally
}

fn note_act(tally: &mut Tally, machine: &mut dyn Machine, act: &Act, lent: &mut Lent) {
    let before = if matches!(act, Act::Run(_)) { lent.record.clone() } else { vec![] };
    let given = perform(machine, act, lent);
    tally.take(act, given, lent);
    if let Given::Outcome(Outcome::Ran { steps, .. }) = given {
        note_rules(tally, &before, steps);
    }
}

/// Goes through a run's steps once more for the rules' names.
fn note_rules(tally: &mut Tally, record: &[u8], steps: u32) {
    let Some(kept) = Record::decode_sound(record, Bend::NONE) else {
        return;
    };
    let stepper = Stepper { types: &kept.types, number: kept.next, sends_barred: false, bend: Bend::NONE };
    let mut term = from_rows(&kept.rows);
    for _ in 0..steps {
        let Some(step) = stepper.step(&term) else {
            return;
        };
        *tally.rules.entry(step.rule).or_default() += 1;
        term = step.next;
    }
}

/// For each way of damaging a record: how often it was done, and how often the record was then not sound.
pub fn ways_of_damage(seed: u64, each: u64) -> Vec<(&'static str, u64, u64)> {
    let mut random = Random::numbered(seed, 10);
    let mut table = Vec::new();
    for (way, words) in WAYS.iter().enumerate() {
        let (mut done, mut unsound) = (0, 0);
        while done < each {
            let mut record = sound(&mut random);
            let before = record.clone();
            damage(&mut random, &mut record, way);
            if record != before {
                done += 1;
                unsound += u64::from(Record::decode_sound(&record, Bend::NONE).is_none());
            }
        }
        table.push((*words, done, unsound));
    }
    table
}

/// Prints everything as tables for a page.
pub fn print(seed: u64, sessions: u64, groups: u64, out: &mut dyn Write) -> io::Result<()> {
    let tally = tally(seed, sessions, groups);
    writeln!(out, "Seed {seed}: {sessions} sessions, {groups} groups of loads, {} steps.\n", tally.steps)?;
    writeln!(out, "| entry | answer or refusal | times | distinct places (for answers: step counts) |")?;
    writeln!(out, "|---|---|---:|---:|")?;
    for ((entry, words), (count, places)) in &tally.came {
        writeln!(out, "| {entry} | {} | {count} | {} |", words.trim(), places.len())?;
    }
    let sizes = (tally.sizes.first().unwrap_or(&0), tally.sizes.last().unwrap_or(&0), tally.sizes.len());
    writeln!(
        out,
        "\nAccepted programs have {} to {} rows, {} different counts. Their rows by kind:\n",
        sizes.0, sizes.1, sizes.2
    )?;
    writeln!(out, "| kind | rows |")?;
    writeln!(out, "|---|---:|")?;
    for (number, name) in KINDS.iter().enumerate().skip(1) {
        writeln!(out, "| {number} {name} | {} |", tally.kinds[number])?;
    }
    writeln!(out, "\n| step by rule | times |")?;
    writeln!(out, "|---|---:|")?;
    for (rule, times) in &tally.rules {
        writeln!(out, "| {rule} | {times} |")?;
    }
    writeln!(out, "\n| a sound record damaged in | times | not sound (10) |")?;
    writeln!(out, "|---|---:|---:|")?;
    for (words, done, unsound) in ways_of_damage(seed, 200) {
        writeln!(out, "| {words} | {done} | {unsound} |")?;
    }
    Ok(())
}
