//! The three entries: load, run and reply, exact in every number and every byte of the lent buffers.

use crate::fault::{Bend, Fault};
use crate::layout::*;
use crate::record::{decode_types, Entry, Record};
use crate::rows::{decode_rows, encode_rows, first_malformed, kind, Row, Shape};
use crate::step::{is_value, Call, Step, Stepper};
use crate::term::{self, Tree};
use crate::types::Types;
use crate::typing::Typing;

/// What load and reply give: 0, 0 if accepted, else the refusal and its place.
#[derive(Clone, Copy, Debug, Default, PartialEq, Eq, Hash)]
pub struct Verdict {
    pub refusal: u32,
    pub place: u32,
}

impl Verdict {
    pub const ACCEPTED: Verdict = Verdict { refusal: 0, place: 0 };

    fn refused(refusal: u32, place: usize) -> Verdict {
        Verdict { refusal, place: place as u32 }
    }
}

/// What run gives. "A refused run is a case of its own" (reading 16).
#[derive(Clone, Copy, Debug, PartialEq, Eq, Hash)]
pub enum Outcome {
    Refused(Verdict),
    Ran { answer: Answer, sent: u32, steps: u32 },
}

/// The answers of document 01, "What comes back", with that paper's numbers.
#[derive(Clone, Copy, Debug, PartialEq, Eq, Hash)]
pub enum Answer {
    Value = 0,
    Waiting = 1,
    Sent = 2,
    Held = 3,
    Budget = 4,
    Room = 5,
    Numbers = 6,
}

/// Load: "1, 2 (under 10), 3, 4, 5, 2, 6, 7, 8, 9".
pub fn load(file: &[u8], record: &mut [u8], bend: Bend) -> Verdict {
    if record.len() != RECORD_BYTES {
        return Verdict::refused(1, 0);
    }
    match read_program(file, bend) {
        Ok(fresh) => {
            if bend.is(Fault::RecordNotCleared) {
                fresh.encode_over(record);
            } else {
                fresh.encode(record);
            }
            Verdict::ACCEPTED
        }
        Err(verdict) => {
            if bend.is(Fault::RefusedLoadClears) {
                record.fill(0);
            }
            verdict
        }
    }
}

/// The fresh record of a program file, or its refusal from 2 on.
pub fn read_program(file: &[u8], bend: Bend) -> Result<Record, Verdict> {
    // 2: "file under 10 bytes"
    if file.len() < FILE_HEAD {
        let for_its_mark = bend.is(Fault::MarkBeforeShortness) && !file.starts_with(FILE_MARK);
        return Err(Verdict::refused(if for_its_mark { 3 } else { 2 }, 0));
    }
    let type_count = usize::from(u16_at(file, 6));
    let row_count = usize::from(u16_at(file, 8));
    if let Some(refusal) = refusal_of_head(file, type_count, row_count, bend) {
        return Err(Verdict::refused(refusal, 0));
    }
    let (type_bytes, row_bytes) = file[FILE_HEAD..].split_at(type_count * TYPE_BYTES);
    // 6: "first bad type row"
    let types = Types::check(decode_types(type_bytes), bend).map_err(|place| Verdict::refused(6, place))?;
    // 7: the rows' form
    let rows = decode_rows(row_bytes);
    if let Some(place) = first_malformed(&rows, type_count, bend) {
        return Err(Verdict::refused(7, place));
    }
    // 8: "first future in a program"
    let future = rows.iter().position(|row| row.kind == kind::FUTURE).map(|place| Verdict::refused(8, place));
    // 9: "first row that fails typing"
    let shape = Shape::of(&rows);
    let failing = Typing { types: &types, rows: &rows, shape: &shape, bend }.first_failing();
    let failing = failing.map(|place| Verdict::refused(9, place));
    let mut refusals = [future, failing];
    if bend.is(Fault::TypingBeforeFutures) {
        refusals.reverse();
    }
    if let Some(verdict) = refusals.into_iter().flatten().next() {
        return Err(verdict);
    }
    // "An accepted load writes a fresh record: the file's types and rows, next number 1, no open call, row 0's type as
    // program type."
    let typed_row = if bend.is(Fault::ProgramTypeOfLastRow) { rows.len() - 1 } else { 0 };
    Ok(Record { program_type: rows[typed_row].ty, types, open: Vec::new(), next: 1, rows })
}

/// The refusals of a file's head and length, in their order: "3, 4, 5, 2".
fn refusal_of_head(file: &[u8], type_count: usize, row_count: usize, bend: Bend) -> Option<u32> {
    let max_types = MAX_TYPES - usize::from(bend.is(Fault::TypesOneEarly));
    let max_rows = MAX_PROGRAM_ROWS + usize::from(bend.is(Fault::ProgramRowsOneOver));
    let version = if bend.is(Fault::VersionOneByte) { u16::from(file[3]) } else { u16_at(file, 3) };
    let counts_fit = (1..=max_types).contains(&type_count) && (1..=max_rows).contains(&row_count);
    let needed = FILE_HEAD + type_count * TYPE_BYTES + row_count * ROW_BYTES;
    let mut tests = [
        // 3, 4: "mark; version"
        (3, file[..3] == *FILE_MARK),
        (4, version == VERSION),
        // 5: "zero byte or a count"
        (5, file[5] == 0 && counts_fit),
        // 2: "not the length its counts need"
        (2, file.len() == needed),
    ];
    match bend.fault() {
        Some(Fault::CountsBeforeVersion) => tests.swap(1, 2),
        Some(Fault::LengthBeforeCounts) => tests.swap(2, 3),
        _ => {}
    }
    tests.into_iter().find(|(_, passed)| !passed).map(|(refusal, _)| refusal)
}

/// Run: "1, 10", then steps until an answer.
pub fn run(record: &mut [u8], work: &mut [u8], budget: u32, bend: Bend) -> Outcome {
    if record.len() != RECORD_BYTES || work.len() != WORK_BYTES {
        return Outcome::Refused(Verdict::refused(1, 0));
    }
    let Some(mut kept) = Record::decode_sound(record, bend) else {
        if bend.is(Fault::RefusedRunClearsWork) {
            work.fill(0);
        }
        return Outcome::Refused(Verdict::refused(10, 0));
    };
    let mut term = term::from_rows(&kept.rows);
    let mut steps = 0;
    let (answer, call) = steps_until_answer(&mut kept, &mut term, budget, &mut steps, bend);
    kept.rows.clear();
    term::to_rows(&term, &mut kept.rows);
    if bend.is(Fault::OldRowsStay) {
        kept.encode_over(record);
    } else {
        kept.encode(record);
    }
    // "The work buffer then holds the call and zeros; after other answers ... only zeros."
    let sent = match call {
        Some((number, call)) => {
            write_call(work, number, &call, bend);
            number
        }
        None => {
            if !bend.is(Fault::WorkNotCleared) {
                work.fill(0);
            }
            0
        }
    };
    Outcome::Ran { answer, sent, steps }
}

/// Steps "until an answer": before each step, the table of answers is gone through in its order.
fn steps_until_answer(
    kept: &mut Record,
    term: &mut Tree,
    budget: u32,
    steps: &mut u32,
    bend: Bend,
) -> (Answer, Option<(u32, Call)>) {
    loop {
        let step = next_step(kept, term, bend);
        let budget_made = *steps == budget;
        if let Some(answer) = answer_due(kept, term, step.as_ref(), budget_made, bend) {
            return (answer, None);
        }
        let Some(step) = step else {
            return (Answer::Waiting, None);
        };
        *term = step.next;
        // "A send counts as a step and ends the run with 2 SENT."
        let Some(call) = step.call else {
            *steps += 1;
            continue;
        };
        *steps += u32::from(!bend.is(Fault::SendIsNoStep));
        let number = kept.next;
        if bend.is(Fault::EqualCallsShareNumber) {
            *term = share_number(term, &call.whole, number);
        }
        enter(&mut kept.open, Entry { number, ty: call.result }, bend);
        kept.next += 1;
        return (Answer::Sent, Some((number, call)));
    }
}

/// The step that the rules make, if any.
fn next_step(kept: &Record, term: &Tree, bend: Bend) -> Option<Step> {
    let stepper = Stepper { types: &kept.types, number: kept.next, sends_barred: false, bend };
    let puts_sends_off =
        bend.is(Fault::ReductionsBeforeSends) || bend.is(Fault::HeldPassedOver) && kept.open.len() == MAX_OPEN;
    if puts_sends_off {
        let barred = Stepper { sends_barred: true, ..stepper };
        return barred.step(term).or_else(|| stepper.step(term));
    }
    stepper.step(term)
}

/// "Before each step, in this order": the table of answers.
fn answer_due(kept: &Record, term: &Tree, step: Option<&Step>, budget_made: bool, bend: Bend) -> Option<Answer> {
    let sends = step.is_some_and(|step| step.call.is_some());
    let next_rows = step.map_or(0, |step| term::count_rows(&step.next, MAX_ROWS));
    let max_open = MAX_OPEN - usize::from(bend.is(Fault::HeldOneEarly));
    let last_next = NUMBERS_END - u32::from(bend.is(Fault::NumbersOneEarly));
    let max_rows = MAX_ROWS - usize::from(bend.is(Fault::RoomOneEarly));
    let no_value = bend.is(Fault::FunctionWithFutureWaits) && term::has_future(term);
    let mut table = [
        // "the term is a value"
        (Answer::Value, is_value(term) && !no_value),
        // "no rule applies"
        (Answer::Waiting, step.is_none()),
        // "the step would send and 64 are open"
        (Answer::Held, sends && kept.open.len() >= max_open),
        // "it would send and the next number is 65,536"
        (Answer::Numbers, sends && kept.next >= last_next),
        // "the next term has over 2,048 rows"
        (Answer::Room, next_rows > max_rows),
        // "the budget's steps are made"
        (Answer::Budget, budget_made),
    ];
    match bend.fault() {
        Some(Fault::BudgetFirst) => table.rotate_right(1),
        Some(Fault::NumbersBeforeHeld) => table.swap(2, 3),
        Some(Fault::BudgetBeforeRoom) => table.swap(4, 5),
        _ => {}
    }
    table.into_iter().find(|(_, due)| *due).map(|(answer, _)| answer)
}

/// A new call's number is above all open ones, so it goes last: "kept in rising order of number".
fn enter(open: &mut Vec<Entry>, entry: Entry, bend: Bend) {
    if bend.is(Fault::EntryAtTheFront) {
        open.insert(0, entry);
    } else {
        open.push(entry);
    }
}

/// What only a bent evaluator does: every application equal to the sent one becomes the same future.
fn share_number(term: &Tree, sent: &Tree, number: u32) -> Tree {
    if term == sent {
        return term::tree(term.ty, term::Node::Future(number));
    }
    term::rebuilt(term, |_, child| share_number(child, sent, number))
}

/// "Sent call: number u32, tool u32, row count u16 of all arguments, result type u16, argument rows."
fn write_call(work: &mut [u8], number: u32, call: &Call, bend: Bend) {
    let mut rows: Vec<Row> = Vec::new();
    let mut first_rows = 0;
    for (k, argument) in call.arguments.iter().enumerate() {
        term::to_rows(argument, &mut rows);
        if k == 0 {
            first_rows = rows.len();
        }
    }
    let stated_rows = if bend.is(Fault::SentRowsOfFirstArgument) { first_rows } else { rows.len() };
    if !bend.is(Fault::SentTailNotCleared) {
        work.fill(0);
    }
    put_u32(work, 0, number);
    put_u32(work, 4, call.tool);
    put_u16(work, 8, stated_rows as u16);
    put_u16(work, 10, call.result);
    work[CALL_HEAD..CALL_HEAD + rows.len() * ROW_BYTES].copy_from_slice(&encode_rows(&rows));
}

/// Reply: "1, 10, then 11 to 16".
pub fn reply(record: &mut [u8], work: &mut [u8], reply: &[u8], bend: Bend) -> Verdict {
    if record.len() != RECORD_BYTES || work.len() != WORK_BYTES {
        return Verdict::refused(1, 0);
    }
    let Some(mut kept) = Record::decode_sound(record, bend) else {
        return Verdict::refused(10, 0);
    };
    match take_reply(&mut kept, reply, bend) {
        Ok(()) => {
            let last_entry = record[RECORD_ROWS - ENTRY_BYTES..RECORD_ROWS].to_vec();
            kept.encode(record);
            if bend.is(Fault::OldEntryStays) {
                record[RECORD_ROWS - ENTRY_BYTES..RECORD_ROWS].copy_from_slice(&last_entry);
            }
            // "after an accepted reply, only zeros"
            if !bend.is(Fault::ReplyWorkNotCleared) {
                work.fill(0);
            }
            Verdict::ACCEPTED
        }
        Err(verdict) => {
            if bend.is(Fault::RefusedReplyClearsWork) {
                work.fill(0);
            }
            verdict
        }
    }
}

/// Takes a reply into a sound record, or gives its refusal from 11 on.
fn take_reply(kept: &mut Record, reply: &[u8], bend: Bend) -> Result<(), Verdict> {
    // 11: "reply header or length" (reading 7)
    let max_rows = MAX_REPLY_ROWS + usize::from(bend.is(Fault::ReplyRowsOneOver));
    let header_fits = reply.len() >= REPLY_HEAD
        && (1..=max_rows).contains(&usize::from(u16_at(reply, 4)))
        && all_zero(&reply[6..8])
        && reply.len() == REPLY_HEAD + ROW_BYTES * usize::from(u16_at(reply, 4));
    let entry = if reply.len() >= 4 { kept.entry(u32_at(reply, 0)) } else { None };
    if entry.is_none() && reply.len() >= 4 && bend.is(Fault::NumberBeforeHeader) {
        return Err(Verdict::refused(12, 0));
    }
    if !header_fits {
        return Err(Verdict::refused(11, 0));
    }
    // 12: "number not open"
    let entry = entry.ok_or(Verdict::refused(12, 0))?;
    let rows = decode_rows(&reply[REPLY_HEAD..]);
    if let Some(verdict) = refusal_of_reply_rows(kept, entry, &rows, bend) {
        return Err(verdict);
    }
    // 16: "term would pass 2,048 rows"
    let term = term::from_rows(&kept.rows);
    let futures = term::count_futures(&term, entry.number);
    let counted = if bend.is(Fault::ReplyRoomForOne) { futures.min(1) } else { futures };
    let rows_after = kept.rows.len() + counted * rows.len() - counted;
    if rows_after > MAX_ROWS - usize::from(bend.is(Fault::ReplyRoomOneEarly)) {
        return Err(Verdict::refused(16, 0));
    }
    // "An accepted reply replaces every future of its number by its rows and takes the entry out; if the number stands
    // nowhere, only the entry goes."
    let term = term::put_for_future(&term, entry.number, &term::from_rows(&rows), bend);
    kept.rows.clear();
    term::to_rows(&term, &mut kept.rows);
    // Only a bent evaluator, counting wrongly above, can have too many rows here.
    kept.rows.truncate(MAX_ROWS);
    if futures > 0 || !bend.is(Fault::EntryStaysIfNowhere) {
        take_out(&mut kept.open, entry.number, bend);
    }
    Ok(())
}

/// The refusals of a reply's rows, in their order: 13, 14, 15.
fn refusal_of_reply_rows(kept: &Record, entry: Entry, rows: &[Row], bend: Bend) -> Option<Verdict> {
    // 13: "reply row, as 7"
    let malformed = first_malformed(rows, kept.types.count(), bend);
    // 14: "first reply row not of kind 1 to 4, 12, 13, 16"
    let other_kind = rows.iter().position(|row| !may_stand_in_a_reply(row));
    // 15: "first reply row that fails typing; row 0 must also have the listed type" (reading 9). Rows that are malformed
    // have no typing.
    let failing = if malformed.is_some() { None } else { first_ill_typed(kept, entry, rows, bend) };
    let mut refusals = [(13, malformed), (14, other_kind), (15, failing)];
    match bend.fault() {
        Some(Fault::KindsBeforeForm) => refusals.swap(0, 1),
        Some(Fault::TypingBeforeKinds) => refusals.swap(1, 2),
        _ => {}
    }
    refusals.into_iter().find_map(|(refusal, place)| place.map(|place| Verdict::refused(refusal, place)))
}

fn first_ill_typed(kept: &Record, entry: Entry, rows: &[Row], bend: Bend) -> Option<usize> {
    if rows[0].ty != entry.ty && !bend.is(Fault::ListedTypeNotCompared) {
        return Some(0);
    }
    if bend.is(Fault::ReplyByOuterType) {
        return None;
    }
    Typing { types: &kept.types, rows, shape: &Shape::of(rows), bend }.first_failing()
}

fn may_stand_in_a_reply(row: &Row) -> bool {
    matches!(row.kind, kind::STR | kind::FILE | kind::TRUE | kind::FALSE | kind::NIL | kind::CONS | kind::TUPLE)
}

/// The list with one entry fewer, order kept.
fn take_out(open: &mut Vec<Entry>, number: u32, bend: Bend) {
    if bend.is(Fault::EntryOutOfOrder) {
        if let Some(place) = open.iter().position(|entry| entry.number == number) {
            open.swap_remove(place);
        }
    } else {
        open.retain(|entry| entry.number != number);
    }
}
