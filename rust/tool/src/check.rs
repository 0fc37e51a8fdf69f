//! Whether the library accepts a program file, and if not why, with the row among its neighbours.

use library::Refused;

use crate::bytes::*;
use crate::judge::{program_reason, Reason};
use crate::lines::row_line;
use crate::shape::{children_of, stands, Stand};
use crate::show::{many, sort_of, Sort};
use crate::types::Types;
use crate::words::{row_fields, type_fields, Words};

/// How many of the rows around a refused one are shown, the nearest.
const PARENTS_SHOWN: usize = 8;

/// The lines that tell a file's verdict, and whether it is accepted.
pub fn check(name: &str, file: &[u8]) -> (Vec<String>, bool) {
    let refused = match library::load(file) {
        Ok(record) => {
            let types = Types::new(record_types(record.as_bytes()));
            let words = Words::new(&types);
            let ty = words.ty(RecordHead::read(record.as_bytes()).program_type);
            let rows = record.rows().count();
            let counts = format!("{}, {}", many(types.count(), "type"), many(rows, "row"));
            return (vec![format!("{name}: accepted: {counts}, a routine that gives {ty}")], true);
        }
        Err(refused) => refused,
    };
    let mut lines = vec![format!("{name}: refused: {refused}")];
    let agrees = |reason: &Reason| (reason.refusal, reason.place) == (refused.refusal.number(), refused.place as usize);
    if let Some(reason) = program_reason(file).filter(agrees) {
        lines.extend(reason.why.lines().into_iter().map(|line| format!("  {line}")));
        lines.extend(neighbours(file, refused));
    }
    lines.push(format!("next: {}", advice(name, file, refused)));
    (lines, false)
}

/// The refused type row below the types that it is made of, or the refused row between its parents and its children.
fn neighbours(file: &[u8], refused: Refused) -> Vec<String> {
    let number = refused.refusal.number();
    if !(6..=9).contains(&number) {
        return Vec::new();
    }
    let type_count = usize::from(u16_at(file, 6));
    let (type_bytes, row_bytes) = file[FILE_HEAD..].split_at(type_count * TYPE_BYTES);
    let types = Types::new(read_types(type_bytes));
    let words = Words::new(&types);
    let place = refused.place as usize;
    if number == 6 {
        return type_neighbours(&words, place);
    }
    let rows = read_rows(row_bytes);
    let stands = stands(&rows);
    // Rows are missing behind the last one: it is the neighbour.
    let unfinished = place == rows.len();
    let at = if unfinished { place - 1 } else { place };
    let above = parents_of(&stands, at);
    let mut lines = vec![String::new()];
    if above.len() > PARENTS_SHOWN {
        lines.push(format!("          ... {} rows further out", above.len() - PARENTS_SHOWN));
    }
    let line = |place: usize| row_line(&words, &rows, &stands[place], place);
    lines.extend(above.iter().take(PARENTS_SHOWN).rev().map(|&parent| format!("   {}", line(parent))));
    if unfinished {
        lines.push(format!("   {}", line(at)));
        lines.push(format!(">> {place:4} | (missing)"));
        return lines;
    }
    lines.push(format!(">> {}", line(at)));
    if number == 7 && has_kind(&rows[at]) {
        lines.push(format!("          {}", row_fields(&rows[at]).trim_start_matches("? ")));
    }
    lines.extend(children_of(&rows, &stands, at).into_iter().take(9).map(|child| format!("   {}", line(child))));
    lines
}

/// The rows around a row, the nearest first.
fn parents_of(stands: &[Stand], mut place: usize) -> Vec<usize> {
    let mut above = Vec::new();
    while let Some((parent, _)) = stands[place].parent {
        above.push(parent);
        place = parent;
    }
    above
}

fn type_neighbours(words: &Words, place: usize) -> Vec<String> {
    let row = &words.types.rows[place];
    let mut parts: Vec<usize> = row.parts().iter().map(|part| usize::from(part.ty)).collect();
    parts.push(usize::from(row.result));
    parts.extend(words.types.rows[..place].iter().position(|other| other == row));
    parts.sort_unstable();
    parts.dedup();
    let mut lines = vec![String::new()];
    for part in parts.into_iter().filter(|&part| part < place) {
        lines.push(format!("   type t{part} = {}", words.written(&words.types.rows[part])));
    }
    let told = words.written(row);
    lines.push(format!(">> type t{place} = {told}"));
    if row.is_readable() {
        lines.push(format!("     {}", type_fields(row).trim_start_matches("? ")));
    }
    lines
}

/// What to do about a refusal.
fn advice(name: &str, file: &[u8], refused: Refused) -> String {
    let text = std::str::from_utf8(file).is_ok_and(|text| !text.contains('\0') && text.contains("term"));
    match refused.refusal.number() {
        2..=5 if text => {
            format!("this looks like a routine in text; `tca make {name} -o FILE` makes a program file of it")
        }
        2..=5 if sort_of(file).0 == Sort::Record => format!("this is a run record; `tca show {name}` shows it"),
        2..=5 => format!("`tca show {name}` shows what can be read of it; copy or make the file anew"),
        _ => format!("`tca show {name}` prints it as text; mend that and `tca make TEXT -o {name}`"),
    }
}
