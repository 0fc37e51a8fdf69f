//! Why the library refuses: the tool's own look at a program, a record or a reply, refusal by refusal.
//!
//! The verdict is always the library's. What is found here is told only where refusal and place agree with it.

use crate::bytes::*;
use crate::rules::{Misfit, Rules};
use crate::shape::{shape_fault, stands};
use crate::types::Types;
use crate::words::Words;

/// A refusal, its place, and why.
#[derive(Clone, Debug, PartialEq, Eq)]
pub struct Reason {
    pub refusal: u32,
    pub place: usize,
    pub why: Why,
}

#[derive(Clone, Debug, PartialEq, Eq)]
pub enum Why {
    Words(String),
    Typing(Misfit),
}

impl Why {
    /// The lines that tell it.
    pub fn lines(&self) -> Vec<String> {
        match self {
            Why::Words(words) => vec![format!("why     {words}")],
            Why::Typing(misfit) => vec![
                format!("rule    {}", misfit.rule),
                format!("at      {}", misfit.at),
                format!("found   {}", misfit.found),
                format!("wanted  {}", misfit.wanted),
            ],
        }
    }
}

impl Why {
    /// All on one line.
    pub fn in_line(&self) -> String {
        match self {
            Why::Words(words) => words.clone(),
            Why::Typing(misfit) => format!("{}: found {}, wanted {}", misfit.at, misfit.found, misfit.wanted),
        }
    }
}

fn reason(refusal: u32, place: usize, why: impl Into<String>) -> Reason {
    Reason { refusal, place, why: Why::Words(why.into()) }
}

/// The bytes that a program file of these counts needs.
pub fn file_bytes(types: usize, rows: usize) -> usize {
    FILE_HEAD + types * TYPE_BYTES + rows * ROW_BYTES
}

/// Why a program file would be refused.
pub fn program_reason(file: &[u8]) -> Option<Reason> {
    if let Some(head) = file_head_reason(file) {
        return Some(head);
    }
    let type_count = usize::from(u16_at(file, 6));
    let (type_bytes, row_bytes) = file[FILE_HEAD..].split_at(type_count * TYPE_BYTES);
    let types = Types::new(read_types(type_bytes));
    if let Some((place, why)) = types.fault() {
        return Some(reason(6, place, why));
    }
    let rows = read_rows(row_bytes);
    if let Some((place, why)) = shape_fault(&rows, type_count) {
        return Some(reason(7, place, why));
    }
    if let Some(place) = rows.iter().position(|row| row.kind == kind::FUTURE) {
        let why = format!("a program holds no calls that were sent, and this row stands for call {}", rows[place].word);
        return Some(reason(8, place, why));
    }
    let (place, misfit) = typing_reason(&types, &rows)?;
    Some(Reason { refusal: 9, place, why: Why::Typing(misfit) })
}

/// Refusals 2 to 5, and 2 again.
fn file_head_reason(file: &[u8]) -> Option<Reason> {
    let (types, rows) = (usize::from(u16_at(file, 6)), usize::from(u16_at(file, 8)));
    if file.len() < FILE_HEAD {
        return Some(reason(2, 0, format!("the file has {} bytes, and its head alone has {FILE_HEAD}", file.len())));
    }
    if !file.starts_with(FILE_MARK) {
        return Some(reason(3, 0, format!("the first three bytes are {}, and must be 54 43 41, TCA", hex(&file[..3]))));
    }
    if u16_at(file, 3) != VERSION {
        return Some(reason(4, 0, format!("the version is {}, and must be 1", u16_at(file, 3))));
    }
    if file[5] != 0 {
        return Some(reason(5, 0, format!("byte 5 is {}, and must be zero", file[5])));
    }
    if !(1..=MAX_TYPES).contains(&types) {
        return Some(reason(5, 0, format!("the type count is {types}, and must be 1 to 256")));
    }
    if !(1..=MAX_FILE_ROWS).contains(&rows) {
        return Some(reason(5, 0, format!("the row count is {rows}, and must be 1 to 1,024")));
    }
    let needed = file_bytes(types, rows);
    let words = || format!("{types} types and {rows} rows need {needed} bytes, and the file has {}", file.len());
    (file.len() != needed).then(|| reason(2, 0, words()))
}

fn typing_reason(types: &Types, rows: &[Row]) -> Option<(usize, Misfit)> {
    let words = Words::new(types);
    Rules { types, rows, stands: &stands(rows), words: &words }.first_misfit()
}

/// Bytes in hex.
pub fn hex(bytes: &[u8]) -> String {
    bytes.iter().map(|byte| format!("{byte:02X}")).collect::<Vec<_>>().join(" ")
}

/// Why a record of the right length is not sound; the place is that of a type row (refusal 6 in a file) or a row.
#[derive(Clone, Debug)]
pub struct Unsound {
    pub why: Why,
    /// The type row that is bad.
    pub bad_type: Option<usize>,
    /// The term row that is bad; the row count if the tree is unfinished.
    pub bad_row: Option<usize>,
}

impl From<String> for Unsound {
    fn from(words: String) -> Unsound {
        Unsound { why: Why::Words(words), bad_type: None, bad_row: None }
    }
}

/// The first reason why a record is not sound.
pub fn unsound(bytes: &[u8]) -> Option<Unsound> {
    if let Some(words) = record_head_fault(bytes).or_else(|| unused_space_fault(bytes)) {
        return Some(words.into());
    }
    let types = Types::new(record_types(bytes));
    if let Some((place, why)) = types.fault() {
        return Some(Unsound { bad_type: Some(place), ..format!("type {place} is bad: {why}").into() });
    }
    let rows = record_rows(bytes);
    if let Some((place, why)) = shape_fault(&rows, types.count()) {
        return Some(Unsound { bad_row: Some(place), ..format!("row {place} is bad: {why}").into() });
    }
    if let Some((place, misfit)) = typing_reason(&types, &rows) {
        return Some(Unsound { why: Why::Typing(misfit), bad_type: None, bad_row: Some(place) });
    }
    let open = record_open(bytes);
    if let Some(words) = open_list_fault(&open, RecordHead::read(bytes).next, &types) {
        return Some(words.into());
    }
    for (place, row) in rows.iter().enumerate().filter(|(_, row)| row.kind == kind::FUTURE) {
        let entry = open.iter().find(|entry| entry.number == row.word);
        let words = match entry {
            None => format!("row {place} stands for call {}, which is not open", row.word),
            Some(entry) if entry.ty != row.ty => {
                format!(
                    "row {place} states type {} for call {}, which is open with type {}",
                    row.ty, row.word, entry.ty
                )
            }
            Some(_) => continue,
        };
        return Some(Unsound { bad_row: Some(place), ..words.into() });
    }
    let program_type = RecordHead::read(bytes).program_type;
    let words = || format!("row 0 states type {}, and the program type is {program_type}", rows[0].ty);
    (rows[0].ty != program_type).then(|| Unsound { bad_row: Some(0), ..words().into() })
}

fn record_head_fault(bytes: &[u8]) -> Option<String> {
    let head = RecordHead::read(bytes);
    if bytes.len() != RECORD_BYTES {
        return Some(format!("a record has {RECORD_BYTES} bytes, and this file has {}", bytes.len()));
    }
    if !bytes.starts_with(RECORD_MARK) {
        return Some(format!("the first three bytes are {}, and must be 54 43 52, TCR", hex(&bytes[..3])));
    }
    let tests = [
        (head.version == VERSION, format!("the version is {}, and must be 1", head.version)),
        (head.zero == 0, format!("byte 5 is {}, and must be zero", head.zero)),
        ((1..=MAX_TYPES).contains(&head.types), format!("the type count is {}, and must be 1 to 256", head.types)),
        ((1..=MAX_RECORD_ROWS).contains(&head.rows), format!("the row count is {}, and must be 1 to 2,048", head.rows)),
        (head.open <= MAX_OPEN, format!("the open count is {}, and must be 64 at most", head.open)),
        ((1..=NUMBERS_END).contains(&head.next), format!("the next number is {}, and must be 1 to 65,536", head.next)),
        (head.zeros == 0, "bytes 18 and 19 must be zero".to_string()),
    ];
    tests.into_iter().find(|(holds, _)| !holds).map(|(_, words)| words)
}

fn unused_space_fault(bytes: &[u8]) -> Option<String> {
    let head = RecordHead::read(bytes);
    let spaces = [
        ("types", RECORD_TYPES + head.types * TYPE_BYTES, RECORD_OPEN),
        ("open calls", RECORD_OPEN + head.open * ENTRY_BYTES, RECORD_ROWS),
        ("rows", RECORD_ROWS + head.rows * ROW_BYTES, RECORD_BYTES),
    ];
    spaces.into_iter().find_map(|(words, from, to)| {
        let at = bytes[from..to].iter().position(|&byte| byte != 0)?;
        Some(format!("unused space behind the {words} is not zero, at byte {}", from + at))
    })
}

fn open_list_fault(open: &[Entry], next: u32, types: &Types) -> Option<String> {
    let mut before = 0;
    for Entry { number, ty, zeros } in open.iter().copied() {
        if number == 0 || number >= next {
            return Some(format!("open call {number} is not from 1 to below the next number, {next}"));
        }
        if number <= before {
            return Some(format!("open call {number} stands behind call {before}; the list must rise"));
        }
        if !types.is_ground(ty) {
            return Some(format!("open call {number} has type {ty}, which is not a ground type of the table"));
        }
        if zeros != 0 {
            return Some(format!("the two bytes behind open call {number} must be zero"));
        }
        before = number;
    }
    None
}

/// Why a reply would be refused by a sound record, from 11 to 15.
pub fn reply_reason(record: &[u8], reply: &[u8]) -> Option<Reason> {
    if let Some(why) = reply_head_fault(reply) {
        return Some(reason(11, 0, why));
    }
    let number = u32_at(reply, 0);
    let Some(entry) = record_open(record).into_iter().find(|entry| entry.number == number) else {
        return Some(reason(12, 0, format!("call {number} is not open")));
    };
    let types = Types::new(record_types(record));
    let rows = read_rows(&reply[REPLY_HEAD..]);
    if let Some((place, why)) = shape_fault(&rows, types.count()) {
        return Some(reason(13, place, why));
    }
    let may_stand = |row: &Row| matches!(row.kind, kind::STR..=kind::FALSE | kind::NIL | kind::CONS | kind::TUPLE);
    if let Some(place) = rows.iter().position(|row| !may_stand(row)) {
        let words = Words::new(&types);
        let why = format!(
            "a reply holds str, file, true, false, nil, cons and tuple alone, and this row is {}",
            words.row(&rows[place])
        );
        return Some(reason(14, place, why));
    }
    let words = Words::new(&types);
    let misfit = Rules { types: &types, rows: &rows, stands: &stands(&rows), words: &words }.first_misfit();
    if let Some((place, misfit)) = misfit.filter(|(place, _)| *place == 0 || rows[0].ty == entry.ty) {
        return Some(Reason { refusal: 15, place, why: Why::Typing(misfit) });
    }
    (rows[0].ty != entry.ty).then(|| {
        let misfit = Misfit {
            rule: "reply: row 0 has the type that its call is listed with",
            at: "row 0".to_string(),
            found: words.told(rows[0].ty),
            wanted: words.told(entry.ty),
        };
        Reason { refusal: 15, place: 0, why: Why::Typing(misfit) }
    })
}

fn reply_head_fault(reply: &[u8]) -> Option<String> {
    let count = usize::from(u16_at(reply, 4));
    if reply.len() < REPLY_HEAD {
        return Some(format!("the reply has {} bytes, and its head alone has {REPLY_HEAD}", reply.len()));
    }
    if !(1..=MAX_REPLY_ROWS).contains(&count) {
        return Some(format!("the row count is {count}, and must be 1 to 256"));
    }
    if u16_at(reply, 6) != 0 {
        return Some("bytes 6 and 7 must be zero".to_string());
    }
    let needed = REPLY_HEAD + count * ROW_BYTES;
    (reply.len() != needed).then(|| format!("{count} rows need {needed} bytes, and the reply has {}", reply.len()))
}
