//! The run record: reading a sound one, writing it whole, and its open list.

use crate::fault::{Bend, Fault};
use crate::layout::*;
use crate::rows::{decode_rows, encode_rows, first_malformed, kind, Row, Shape};
use crate::types::{TypeRow, Types};
use crate::typing::Typing;

/// One open call: its number and the type that its reply must have.
#[derive(Clone, Copy, Debug, PartialEq, Eq)]
pub struct Entry {
    pub number: u32,
    pub ty: u16,
}

/// What a sound record holds.
#[derive(Clone, Debug)]
pub struct Record {
    pub types: Types,
    pub open: Vec<Entry>,
    /// The number that the next call will carry.
    pub next: u32,
    pub program_type: u16,
    pub rows: Vec<Row>,
}

impl Record {
    /// Reads the record if it is sound, as document 01 defines: else refusal 10.
    pub fn decode_sound(bytes: &[u8], bend: Bend) -> Option<Record> {
        let header_fits = bytes.len() == RECORD_BYTES
            && bytes[..3] == *RECORD_MARK
            && u16_at(bytes, RECORD_VERSION) == VERSION
            && bytes[RECORD_ZERO] == 0
            && all_zero(&bytes[RECORD_TWO_ZEROS..RECORD_TYPES]);
        if !header_fits {
            return None;
        }
        // Reading 5: types 1 to 256, rows 1 to 2,048, open 0 to 64, next number 1 to 65,536.
        let type_count = usize::from(u16_at(bytes, RECORD_TYPE_COUNT));
        let row_count = usize::from(u16_at(bytes, RECORD_ROW_COUNT));
        let open_count = usize::from(u16_at(bytes, RECORD_OPEN_COUNT));
        let next = u32_at(bytes, RECORD_NEXT);
        let program_type = u16_at(bytes, RECORD_PROGRAM_TYPE);
        let max_rows = if bend.is(Fault::ProgramRowsInRecord) { MAX_PROGRAM_ROWS } else { MAX_ROWS };
        let counts_fit = (1..=MAX_TYPES).contains(&type_count)
            && (1..=max_rows).contains(&row_count)
            && open_count <= MAX_OPEN
            && (1..=NUMBERS_END).contains(&next);
        if !counts_fit {
            return None;
        }
        // "Unused space is zero."
        let types_end = RECORD_TYPES + type_count * TYPE_BYTES;
        let open_end = RECORD_OPEN + open_count * ENTRY_BYTES;
        let rows_end = RECORD_ROWS + row_count * ROW_BYTES;
        let unused_is_zero = all_zero(&bytes[types_end..RECORD_OPEN])
            && all_zero(&bytes[open_end..RECORD_ROWS])
            && all_zero(&bytes[rows_end..]);
        if !unused_is_zero && !bend.is(Fault::UnusedSpaceNotTested) {
            return None;
        }
        // "its types and term pass what refusals 6, 7 and 9 test (futures allowed, up to 2,048 rows)"
        let types = Types::check(decode_types(&bytes[RECORD_TYPES..types_end]), bend).ok()?;
        let rows = decode_rows(&bytes[RECORD_ROWS..rows_end]);
        if first_malformed(&rows, type_count, bend).is_some() {
            return None;
        }
        let shape = Shape::of(&rows);
        if (Typing { types: &types, rows: &rows, shape: &shape, bend }).first_failing().is_some() {
            return None;
        }
        let open = decode_open(&bytes[RECORD_OPEN..open_end], next, &types, bend)?;
        // "each future in the term is listed with its type"
        let all_listed = rows.iter().filter(|row| row.kind == kind::FUTURE).all(|row| {
            let same_type = |entry: &Entry| entry.ty == row.ty || bend.is(Fault::FutureTypeNotCompared);
            let listed = open.iter().find(|entry| entry.number == row.word);
            listed.map_or(bend.is(Fault::FutureNotListed), same_type)
        });
        // "and the first row has the program type"
        let program_type_fits = rows[0].ty == program_type || bend.is(Fault::ProgramTypeNotCompared);
        (all_listed && program_type_fits).then_some(Record { types, open, next, program_type, rows })
    }

    /// Writes the whole record; unused space becomes zero.
    pub fn encode(&self, bytes: &mut [u8]) {
        bytes.fill(0);
        self.encode_over(bytes);
    }

    /// Writes the record's used space only.
    pub fn encode_over(&self, bytes: &mut [u8]) {
        bytes[..3].copy_from_slice(RECORD_MARK);
        put_u16(bytes, RECORD_VERSION, VERSION);
        bytes[RECORD_ZERO] = 0;
        put_u16(bytes, RECORD_TYPE_COUNT, self.types.count() as u16);
        put_u16(bytes, RECORD_ROW_COUNT, self.rows.len() as u16);
        put_u16(bytes, RECORD_OPEN_COUNT, self.open.len() as u16);
        put_u32(bytes, RECORD_NEXT, self.next);
        put_u16(bytes, RECORD_PROGRAM_TYPE, self.program_type);
        put_u16(bytes, RECORD_TWO_ZEROS, 0);
        for (k, row) in self.types.rows.iter().enumerate() {
            let at = RECORD_TYPES + k * TYPE_BYTES;
            bytes[at..at + TYPE_BYTES].copy_from_slice(&row.encode());
        }
        for (k, entry) in self.open.iter().enumerate() {
            let at = RECORD_OPEN + k * ENTRY_BYTES;
            put_u32(bytes, at, entry.number);
            put_u16(bytes, at + 4, entry.ty);
            put_u16(bytes, at + 6, 0);
        }
        let rows = encode_rows(&self.rows);
        bytes[RECORD_ROWS..RECORD_ROWS + rows.len()].copy_from_slice(&rows);
    }

    /// The entry of an open number.
    pub fn entry(&self, number: u32) -> Option<Entry> {
        self.open.iter().copied().find(|entry| entry.number == number)
    }
}

/// Cuts whole bytes into type rows.
pub fn decode_types(bytes: &[u8]) -> Vec<TypeRow> {
    bytes.chunks_exact(TYPE_BYTES).map(TypeRow::decode).collect()
}

/// "every open number is at least 1 and below the next and its type ground", "kept in rising order of number"
/// (strictly: reading 4), with two zeros after each.
fn decode_open(bytes: &[u8], next: u32, types: &Types, bend: Bend) -> Option<Vec<Entry>> {
    let mut open: Vec<Entry> = Vec::new();
    for chunk in bytes.chunks_exact(ENTRY_BYTES) {
        let entry = Entry { number: u32_at(chunk, 0), ty: u16_at(chunk, 4) };
        let rises = open.last().is_none_or(|before| {
            before.number < entry.number || before.number == entry.number && bend.is(Fault::OpenNumberTwice)
        });
        let below_next = entry.number < next || entry.number == next && bend.is(Fault::OpenNumberNotBelowNext);
        let type_fits =
            types.is_ground(entry.ty) || bend.is(Fault::OpenTypeNotGround) && usize::from(entry.ty) < types.count();
        if !(rises && entry.number >= 1 && below_next && type_fits && all_zero(&chunk[6..])) {
            return None;
        }
        open.push(entry);
    }
    Some(open)
}
