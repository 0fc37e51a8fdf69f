//! The byte layouts of document 01: type rows, term rows and the numbers in heads, read as far as they go.

pub use library::{
    reply_of, Row, FILE_HEAD_BYTES as FILE_HEAD, MAX_FILE_ROWS, MAX_OPEN_CALLS as MAX_OPEN, MAX_RECORD_ROWS,
    MAX_REPLY_ROWS, MAX_TYPES, RECORD_BYTES, ROW_BYTES, TYPE_BYTES,
};

pub const FILE_MARK: &[u8; 3] = b"TCA";
pub const RECORD_MARK: &[u8; 3] = b"TCR";
pub const VERSION: u16 = 1;

pub const REPLY_HEAD: usize = 8;
pub const CALL_HEAD: usize = 12;
pub const ENTRY_BYTES: usize = 8;
pub const MAX_PARTS: usize = 8;
/// Names, tools and call numbers are 1 to this.
pub const MAX_NAME: u32 = 65_535;
/// The next number once every call number has been given.
pub const NUMBERS_END: u32 = 65_536;

/// Where the parts of a record begin, behind its head of 20 bytes.
pub const RECORD_TYPES: usize = 20;
pub const RECORD_OPEN: usize = RECORD_TYPES + MAX_TYPES * TYPE_BYTES;
pub const RECORD_ROWS: usize = RECORD_OPEN + MAX_OPEN * ENTRY_BYTES;
const _: () = assert!(RECORD_ROWS + MAX_RECORD_ROWS * ROW_BYTES == RECORD_BYTES);

/// The forms of a type row.
pub mod form {
    pub const STR: u8 = 1;
    pub const FILE: u8 = 2;
    pub const BOOL: u8 = 3;
    pub const LIST: u8 = 4;
    pub const TUPLE: u8 = 5;
    pub const NATIVE: u8 = 6;
    pub const FOREIGN: u8 = 7;
}

/// The kinds of a term row.
pub mod kind {
    pub const STR: u8 = 1;
    pub const FILE: u8 = 2;
    pub const TRUE: u8 = 3;
    pub const FALSE: u8 = 4;
    pub const VARIABLE: u8 = 5;
    pub const NATIVE: u8 = 6;
    pub const FOREIGN: u8 = 7;
    pub const APPLY: u8 = 8;
    pub const FUTURE: u8 = 9;
    pub const IF: u8 = 10;
    pub const FIX: u8 = 11;
    pub const NIL: u8 = 12;
    pub const CONS: u8 = 13;
    pub const ISNIL: u8 = 14;
    pub const ZIP: u8 = 15;
    pub const TUPLE: u8 = 16;
    pub const PROJECT: u8 = 17;
    pub const LIST_PROJECT: u8 = 18;
    pub const LET: u8 = 19;
}

/// The number at a place, or 0 where the bytes end before it.
pub fn u16_at(bytes: &[u8], at: usize) -> u16 {
    bytes.get(at..at + 2).map_or(0, |two| u16::from_le_bytes([two[0], two[1]]))
}

/// The number at a place, or 0 where the bytes end before it.
pub fn u32_at(bytes: &[u8], at: usize) -> u32 {
    bytes.get(at..at + 4).map_or(0, |four| u32::from_le_bytes([four[0], four[1], four[2], four[3]]))
}

/// A pair of a type row: an argument of a function, or an element of a tuple, whose name is 0.
#[derive(Clone, Copy, Debug, Default, PartialEq, Eq)]
pub struct Part {
    pub name: u16,
    pub ty: u16,
}

/// A type row.
#[derive(Clone, Copy, Debug, Default, PartialEq, Eq)]
pub struct TypeRow {
    pub form: u8,
    pub n: u8,
    pub result: u16,
    pub pairs: [Part; MAX_PARTS],
}

impl TypeRow {
    pub fn new(form: u8, result: u16, parts: &[Part]) -> TypeRow {
        let mut pairs = [Part::default(); MAX_PARTS];
        pairs[..parts.len()].copy_from_slice(parts);
        TypeRow { form, n: parts.len() as u8, result, pairs }
    }

    fn read(bytes: &[u8]) -> TypeRow {
        let pair = |k: usize| Part { name: u16_at(bytes, 4 + 4 * k), ty: u16_at(bytes, 6 + 4 * k) };
        TypeRow { form: bytes[0], n: bytes[1], result: u16_at(bytes, 2), pairs: std::array::from_fn(pair) }
    }

    fn write(&self, bytes: &mut Vec<u8>) {
        bytes.extend([self.form, self.n]);
        bytes.extend(self.result.to_le_bytes());
        for pair in self.pairs {
            bytes.extend(pair.name.to_le_bytes());
            bytes.extend(pair.ty.to_le_bytes());
        }
    }

    /// The pairs in use.
    pub fn parts(&self) -> &[Part] {
        &self.pairs[..usize::from(self.n).min(MAX_PARTS)]
    }

    pub fn is_function(&self) -> bool {
        matches!(self.form, form::NATIVE | form::FOREIGN)
    }

    /// Whether the row has a form, so that it can be told as a type at all.
    pub fn is_readable(&self) -> bool {
        (form::STR..=form::FOREIGN).contains(&self.form)
    }
}

/// How many children a row has.
pub fn child_count(row: &Row) -> usize {
    match row.kind {
        kind::NATIVE | kind::FIX | kind::ISNIL | kind::ZIP | kind::PROJECT | kind::LIST_PROJECT => 1,
        kind::CONS | kind::LET => 2,
        kind::IF => 3,
        kind::APPLY => 1 + usize::from(row.n),
        kind::TUPLE => usize::from(row.n),
        _ => 0,
    }
}

/// Whether a row has a kind, so that it can be told as a row at all.
pub fn has_kind(row: &Row) -> bool {
    (kind::STR..=kind::LET).contains(&row.kind)
}

/// All whole type rows of some bytes.
pub fn read_types(bytes: &[u8]) -> Vec<TypeRow> {
    bytes.chunks_exact(TYPE_BYTES).map(TypeRow::read).collect()
}

/// All whole term rows of some bytes.
pub fn read_rows(bytes: &[u8]) -> Vec<Row> {
    bytes.chunks_exact(ROW_BYTES).map(|row| Row::from_bytes(row.try_into().expect("a chunk is a row long"))).collect()
}

/// A program file of these types and rows.
pub fn program_file(types: &[TypeRow], rows: &[Row]) -> Vec<u8> {
    let mut bytes = FILE_MARK.to_vec();
    bytes.extend(VERSION.to_le_bytes());
    bytes.push(0);
    bytes.extend((types.len() as u16).to_le_bytes());
    bytes.extend((rows.len() as u16).to_le_bytes());
    types.iter().for_each(|row| row.write(&mut bytes));
    bytes.extend(rows.iter().flat_map(|row| row.to_bytes()));
    bytes
}

/// An entry of a record's open list.
#[derive(Clone, Copy, Debug, PartialEq, Eq)]
pub struct Entry {
    pub number: u32,
    pub ty: u16,
    pub zeros: u16,
}

/// The head of a record.
#[derive(Clone, Copy, Debug)]
pub struct RecordHead {
    pub version: u16,
    pub zero: u8,
    pub types: usize,
    pub rows: usize,
    pub open: usize,
    pub next: u32,
    pub program_type: u16,
    pub zeros: u16,
}

impl RecordHead {
    pub fn read(bytes: &[u8]) -> RecordHead {
        RecordHead {
            version: u16_at(bytes, 3),
            zero: bytes.get(5).copied().unwrap_or(0),
            types: u16_at(bytes, 6).into(),
            rows: u16_at(bytes, 8).into(),
            open: u16_at(bytes, 10).into(),
            next: u32_at(bytes, 12),
            program_type: u16_at(bytes, 16),
            zeros: u16_at(bytes, 18),
        }
    }
}

/// A stretch of bytes, cut where the bytes end.
pub fn cut(bytes: &[u8], from: usize, to: usize) -> &[u8] {
    &bytes[from.min(bytes.len())..to.min(bytes.len())]
}

/// A record's types, as far as its count and its bytes go.
pub fn record_types(bytes: &[u8]) -> Vec<TypeRow> {
    let count = RecordHead::read(bytes).types.min(MAX_TYPES);
    read_types(cut(bytes, RECORD_TYPES, RECORD_TYPES + count * TYPE_BYTES))
}

/// A record's open list, as far as its count and its bytes go.
pub fn record_open(bytes: &[u8]) -> Vec<Entry> {
    let count = RecordHead::read(bytes).open.min(MAX_OPEN);
    let list = cut(bytes, RECORD_OPEN, RECORD_OPEN + count * ENTRY_BYTES);
    let entry = |at: &[u8]| Entry { number: u32_at(at, 0), ty: u16_at(at, 4), zeros: u16_at(at, 6) };
    list.chunks_exact(ENTRY_BYTES).map(entry).collect()
}

/// A record's term, as far as its count and its bytes go.
pub fn record_rows(bytes: &[u8]) -> Vec<Row> {
    let count = RecordHead::read(bytes).rows.min(MAX_RECORD_ROWS);
    read_rows(cut(bytes, RECORD_ROWS, RECORD_ROWS + count * ROW_BYTES))
}
