//! Any of the four sorts of bytes as text, what is wrong first, as far as they can be read.

use library::{Answer, Record, Work};

use crate::bytes::*;
use crate::judge::{file_bytes, program_reason, reply_reason, unsound, Unsound, Why};
use crate::lines::{term_lines, type_lines};
use crate::routine::state;
use crate::shape::shape_fault;
use crate::types::Types;
use crate::words::Words;

/// The four sorts of bytes.
#[derive(Clone, Copy, Debug, PartialEq, Eq)]
pub enum Sort {
    Program,
    Record,
    Reply,
    Call,
}

/// A text, and whether what it shows is refused or damaged.
#[derive(Clone, Debug, Default)]
pub struct Shown {
    pub lines: Vec<String>,
    pub damaged: bool,
}

impl Shown {
    fn say(&mut self, words: impl Into<String>) {
        self.lines.push(format!("# {}", words.into()));
    }

    fn why(&mut self, why: &Why) {
        why.lines().into_iter().for_each(|line| self.say(line));
    }
}

/// What some bytes are: by their mark, else by what fits them best. The words say so where it is not certain.
pub fn sort_of(bytes: &[u8]) -> (Sort, Option<&'static str>) {
    let near = |mark: &[u8; 3]| mark.iter().zip(bytes).filter(|(a, b)| a == b).count() == 2;
    let count = |at: usize, head: usize| {
        let rows = usize::from(u16_at(bytes, at));
        bytes.len() > head && bytes.len() == head + rows * ROW_BYTES
    };
    if bytes.starts_with(FILE_MARK) {
        (Sort::Program, None)
    } else if bytes.starts_with(RECORD_MARK) {
        (Sort::Record, None)
    } else if bytes.len() == RECORD_BYTES {
        (Sort::Record, Some("it has a record's length, but not its mark: read as a damaged record"))
    } else if bytes.len() >= FILE_HEAD && bytes.len() == file_bytes(u16_at(bytes, 6).into(), u16_at(bytes, 8).into()) {
        (
            Sort::Program,
            Some("it has the length that a program's counts need, but not its mark: read as a damaged program"),
        )
    } else if near(FILE_MARK) {
        (Sort::Program, Some("its mark is nearly TCA: read as a damaged program"))
    } else if near(RECORD_MARK) {
        (Sort::Record, Some("its mark is nearly TCR: read as a damaged record"))
    } else if count(4, REPLY_HEAD) && u16_at(bytes, 6) == 0 {
        (Sort::Reply, Some("it has the length that a reply's count needs: read as a reply"))
    } else if count(8, CALL_HEAD) || bytes.len() == CALL_HEAD && u16_at(bytes, 8) == 0 {
        (Sort::Call, Some("it has the length that a sent call's count needs: read as a sent call"))
    } else {
        (Sort::Program, Some("nothing tells what it is: read as a damaged program; `--as record`, `reply` or `call` reads it otherwise"))
    }
}

/// The bytes as text. A reply and a call borrow the types of a record or a program.
pub fn show(bytes: &[u8], sort: Option<Sort>, lender: Option<&[u8]>, tools: &[(u32, u32)]) -> Shown {
    let (found, doubt) = sort.map_or_else(|| sort_of(bytes), |sort| (sort, None));
    let mut shown = Shown::default();
    let name = match found {
        Sort::Program => "program file",
        Sort::Record => "run record",
        Sort::Reply => "reply",
        Sort::Call => "sent call",
    };
    shown.say(format!("{name}, {} bytes", bytes.len()));
    doubt.into_iter().for_each(|words| shown.say(words));
    match found {
        Sort::Program => program(&mut shown, bytes),
        Sort::Record => record(&mut shown, bytes, tools),
        Sort::Reply => reply(&mut shown, bytes, lender),
        Sort::Call => call(&mut shown, bytes, lender),
    }
    shown
}

/// The types that a record or a program lends.
pub fn lent_types(bytes: &[u8]) -> Types {
    match sort_of(bytes).0 {
        Sort::Record => Types::new(record_types(bytes)),
        _ => Types::new(program_parts(bytes).0),
    }
}

fn program(shown: &mut Shown, bytes: &[u8]) {
    let (types, rows, note) = program_parts(bytes);
    let types = Types::new(types);
    let words = Words::new(&types);
    let (mut bad_type, mut bad_row) = (None, None);
    match library::load(bytes) {
        Ok(_) => shown.say(format!("accepted: {}, {}", many(types.count(), "type"), many(rows.len(), "row"))),
        Err(refused) => {
            shown.damaged = true;
            shown.say(format!("refused: {refused}"));
            let place = refused.place as usize;
            let agrees = |refusal: u32, at: usize| refusal == refused.refusal.number() && at == place;
            if let Some(reason) = program_reason(bytes).filter(|reason| agrees(reason.refusal, reason.place)) {
                shown.why(&reason.why);
            }
            match refused.refusal.number() {
                6 => bad_type = Some(place),
                7..=9 => bad_row = Some(place),
                _ => {}
            }
        }
    }
    note.into_iter().for_each(|note| shown.say(note));
    let whole = shape_fault(&rows, types.count()).is_none();
    shown.lines.extend(type_lines(&words, bad_type));
    shown.lines.push("term".to_string());
    shown.lines.extend(term_lines(&words, &rows, bad_row, whole));
}

/// A program's types and rows as far as they can be read, and how the counts were taken where they do not fit the length.
fn program_parts(bytes: &[u8]) -> (Vec<TypeRow>, Vec<Row>, Option<String>) {
    let (claimed_types, claimed_rows) = (usize::from(u16_at(bytes, 6)), usize::from(u16_at(bytes, 8)));
    let parts = |types: usize, rows: usize| {
        let behind = FILE_HEAD + types * TYPE_BYTES;
        let types = read_types(cut(bytes, FILE_HEAD, behind));
        (types, read_rows(cut(bytes, behind, behind + rows * ROW_BYTES)))
    };
    let body = bytes.len().saturating_sub(FILE_HEAD);
    let by_types = (claimed_types, body.saturating_sub(claimed_types * TYPE_BYTES) / ROW_BYTES);
    let by_rows = (body.saturating_sub(claimed_rows * ROW_BYTES) / TYPE_BYTES, claimed_rows);
    let fits = |&(types, rows): &(usize, usize)| {
        let in_range = (1..=MAX_TYPES).contains(&types) && (1..=MAX_FILE_ROWS).contains(&rows);
        in_range && file_bytes(types, rows) == bytes.len() && Types::new(parts(types, rows).0).fault().is_none()
    };
    if file_bytes(claimed_types, claimed_rows) != bytes.len() {
        if let Some((types, rows)) = [by_types, by_rows].into_iter().find(fits) {
            let (read_types, read_rows) = parts(types, rows);
            let note = format!(
                "its head counts {claimed_types} types and {claimed_rows} rows; the length fits {types} and {rows}, which are shown"
            );
            return (read_types, read_rows, Some(note));
        }
    }
    let (types, rows) = parts(claimed_types, claimed_rows);
    let short = types.len() < claimed_types || rows.len() < claimed_rows;
    let note = format!(
        "its head counts {claimed_types} types and {claimed_rows} rows; {} and {} are there",
        types.len(),
        rows.len()
    );
    (types, rows, (short && bytes.len() >= FILE_HEAD).then_some(note))
}

fn record(shown: &mut Shown, bytes: &[u8], tools: &[(u32, u32)]) {
    let head = RecordHead::read(bytes);
    let types = Types::new(record_types(bytes));
    let words = Words::new(&types);
    let (rows, open) = (record_rows(bytes), record_open(bytes));
    let fault = record_state(shown, bytes, &rows, &open);
    let (bad_type, bad_row) = fault.map_or((None, None), |fault| (fault.bad_type, fault.bad_row));
    shown.say(format!(
        "{}, {}, {}, next number {}, program type {}",
        many(head.types, "type"),
        many(head.rows, "row"),
        many(head.open, "open call"),
        head.next,
        words.ty(head.program_type)
    ));
    open_lines(shown, &words, &rows, &open, tools);
    let whole = shape_fault(&rows, types.count()).is_none();
    shown.lines.extend(type_lines(&words, bad_type));
    shown.lines.push("term".to_string());
    shown.lines.extend(term_lines(&words, &rows, bad_row, whole));
}

/// Whether the record is sound, by the library, and what it waits for; or why it is not.
fn record_state(shown: &mut Shown, bytes: &[u8], rows: &[Row], open: &[Entry]) -> Option<Unsound> {
    let asked = Record::from_bytes(bytes).and_then(state);
    match asked {
        Ok(answer) => {
            let words = match answer {
                Some(answer) => state_words(&answer, rows, open),
                None if open.is_empty() => "no call is open".to_string(),
                None => format!("open: {}", calls_words(open.iter().map(|entry| entry.number))),
            };
            shown.say(format!("sound; {words}"));
            None
        }
        Err(refused) => {
            shown.damaged = true;
            shown.say(format!("refused: {refused}"));
            let fault = unsound(bytes);
            fault.iter().for_each(|fault| shown.why(&fault.why));
            fault
        }
    }
}

/// What a run of no steps answers, for people.
pub fn state_words(answer: &Answer, rows: &[Row], open: &[Entry]) -> String {
    match answer {
        Answer::Value => "at its end: the term is a value".to_string(),
        Answer::Waiting => {
            let stands = |entry: &&Entry| rows.iter().any(|row| row.kind == kind::FUTURE && row.word == entry.number);
            format!("it waits for replies, to {}", calls_words(open.iter().filter(stands).map(|entry| entry.number)))
        }
        Answer::Held => "HELD: it would send a call, and 64 are open; a reply to any lets it go on".to_string(),
        Answer::Numbers => "NUMBERS: it would send a call, and all 65,535 numbers have been given".to_string(),
        Answer::Room => "ROOM: its next step would pass 2,048 rows".to_string(),
        Answer::Budget | Answer::Sent(_) => "it can go on: `tca run` makes its next steps".to_string(),
    }
}

/// The open calls, one on a line or, if there are many, several.
fn open_lines(shown: &mut Shown, words: &Words, rows: &[Row], open: &[Entry], tools: &[(u32, u32)]) {
    let told = |entry: &Entry| {
        let is_here = |(_, row): &(usize, &Row)| row.kind == kind::FUTURE && row.word == entry.number;
        let places: Vec<String> = rows.iter().enumerate().filter(is_here).map(|(place, _)| place.to_string()).collect();
        let stands = match places.len() {
            0 => "standing nowhere".to_string(),
            1 => format!("at row {}", places[0]),
            2..=8 => format!("at rows {}", places.join(", ")),
            more => format!("at rows {} and {} more", places[..8].join(", "), more - 8),
        };
        let tool = tools.iter().find(|(number, _)| *number == entry.number);
        let tool = tool.map_or(String::new(), |(_, tool)| format!(" of tool {tool}"));
        format!("call {}{tool} : {}, {stands}", entry.number, words.ty(entry.ty))
    };
    // Damage may count entries that were never made, or make many of one.
    let counted = open.len();
    let mut open: Vec<Entry> =
        open.iter().filter(|entry| (entry.number, entry.ty, entry.zeros) != (0, 0, 0)).copied().collect();
    open.dedup();
    if !open.is_empty() {
        shown.say("open calls");
    }
    let a_line = open.len().div_ceil(12).max(1);
    for group in open.chunks(a_line) {
        shown.say(format!("  {}", group.iter().map(told).collect::<Vec<_>>().join("; ")));
    }
    if open.len() < counted {
        shown.say(format!(
            "{} of the open list are empty or repeat the one before",
            many(counted - open.len(), "place")
        ));
    }
}

fn reply(shown: &mut Shown, bytes: &[u8], lender: Option<&[u8]>) {
    let types = lender.map(lent_types).unwrap_or_default();
    let words = Words::new(&types);
    let mut bad_row = None;
    match lender.map(Record::from_bytes) {
        Some(Ok(mut record)) => match library::reply(&mut record, &mut Work::new(), bytes) {
            Ok(()) => shown.say("this record would take it"),
            Err(refused) => {
                shown.damaged = true;
                shown.say(format!("this record would refuse it: {refused}"));
                let place = refused.place as usize;
                let number = refused.refusal.number();
                let reason = reply_reason(lender.unwrap_or(&[]), bytes);
                if let Some(reason) = reason.filter(|reason| (reason.refusal, reason.place) == (number, place)) {
                    shown.why(&reason.why);
                }
                bad_row = (13..=15).contains(&number).then_some(place);
            }
        },
        Some(Err(_)) => shown.say("the file given for its types is no record, so only they are taken from it"),
        None => {
            shown.say("types are told by number; `--types RECORD` tells them in words and whether the record takes it")
        }
    }
    let count = usize::from(u16_at(bytes, 4));
    let rows: Vec<Row> = read_rows(cut(bytes, REPLY_HEAD, bytes.len())).into_iter().take(count).collect();
    if bytes.len() < REPLY_HEAD {
        shown.damaged = true;
        shown.say(format!("a reply has at least {REPLY_HEAD} bytes"));
        return;
    }
    if bytes.len() != REPLY_HEAD + count * ROW_BYTES {
        shown.damaged = true;
        shown.say(format!(
            "its head counts {}, and {} are there",
            many(count, "row"),
            bytes[REPLY_HEAD..].len() / ROW_BYTES
        ));
    }
    let whole = shape_fault(&rows, MAX_TYPES).is_none();
    shown.lines.push(format!("reply {}", u32_at(bytes, 0)));
    shown.lines.extend(term_lines(&words, &rows, bad_row, whole));
}

fn call(shown: &mut Shown, bytes: &[u8], lender: Option<&[u8]>) {
    let types = lender.map(lent_types).unwrap_or_default();
    let words = Words::new(&types);
    if bytes.len() < CALL_HEAD {
        shown.damaged = true;
        shown.say(format!("a sent call has at least {CALL_HEAD} bytes"));
        return;
    }
    let (number, tool, count) = (u32_at(bytes, 0), u32_at(bytes, 4), usize::from(u16_at(bytes, 8)));
    let rows: Vec<Row> = read_rows(&bytes[CALL_HEAD..]).into_iter().take(count).collect();
    for (fits, words) in [
        ((1..=MAX_NAME).contains(&number), "its number is not 1 to 65,535"),
        ((1..=MAX_NAME).contains(&tool), "its tool is not 1 to 65,535"),
        (rows.len() == count, "its rows are cut off"),
    ] {
        if !fits {
            shown.damaged = true;
            shown.say(words);
        }
    }
    if lender.is_none() {
        shown.say("types are told by number; `--types RECORD` tells them in words");
    }
    let result = words.ty(u16_at(bytes, 10));
    shown.lines.push(format!("call {number} of tool {tool}, {}, result {result}", many(count, "argument row")));
    shown.lines.extend(argument_lines(&words, &rows));
}

/// The arguments of a call, tree after tree, the first row of each with its number.
fn argument_lines(words: &Words, rows: &[Row]) -> Vec<String> {
    let mut lines = Vec::new();
    let (mut at, mut argument) = (0, 1);
    let mut trees = 0;
    while at < rows.len() {
        let end = at + crate::shape::stands(&rows[at..])[0].end;
        // Only a damaged call has more than eight arguments; the rest is then one stretch.
        let end = if trees < 8 { end } else { rows.len() };
        let whole = trees < 8;
        let mut tree = term_lines(words, &rows[at..end], None, whole);
        if let Some(first) = tree.first_mut() {
            *first += &format!("   # argument {argument}");
        }
        lines.extend(tree);
        (at, argument, trees) = (end, argument + 1, trees + 1);
    }
    lines
}

/// Calls by their rising numbers, neighbours as a stretch: `calls 1, 4 to 7`.
pub fn calls_words(numbers: impl Iterator<Item = u32>) -> String {
    let numbers: Vec<u32> = numbers.collect();
    let stretches = numbers.chunk_by(|a, b| a + 1 == *b).map(|stretch| match stretch {
        [one] => one.to_string(),
        [first, second] => format!("{first}, {second}"),
        [first, .., last] => format!("{first} to {last}"),
        [] => String::new(),
    });
    let told = stretches.collect::<Vec<_>>().join(", ");
    format!("{} {told}", if numbers.len() == 1 { "call" } else { "calls" })
}

/// A count with its word.
pub fn many(count: usize, what: &str) -> String {
    format!("{count} {what}{}", if count == 1 { "" } else { "s" })
}
