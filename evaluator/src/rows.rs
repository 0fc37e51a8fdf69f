//! Term rows: reading and writing them, what refusal 7 tests, and the shape of the one tree they make.

use crate::fault::{Bend, Fault};
use crate::layout::{put_u16, put_u32, u16_at, u32_at, MAX_WORD, ROW_BYTES};

/// The kinds of document 01, "Term row".
pub mod kind {
    pub const STR: u8 = 1;
    pub const FILE: u8 = 2;
    pub const TRUE: u8 = 3;
    pub const FALSE: u8 = 4;
    pub const VARIABLE: u8 = 5;
    pub const NATIVE: u8 = 6;
    pub const FOREIGN: u8 = 7;
    pub const APPLY: u8 = 8;
    pub const FUTURE: u8 = 9;
    pub const IF: u8 = 10;
    pub const FIX: u8 = 11;
    pub const NIL: u8 = 12;
    pub const CONS: u8 = 13;
    pub const ISNIL: u8 = 14;
    pub const ZIP: u8 = 15;
    pub const TUPLE: u8 = 16;
    pub const PROJECT: u8 = 17;
    pub const LIST_PROJECT: u8 = 18;
    pub const LET: u8 = 19;
}

/// "kind u8, n u8, type u16, word u32"
#[derive(Clone, Copy, Debug, Default, PartialEq, Eq, Hash)]
pub struct Row {
    pub kind: u8,
    pub n: u8,
    pub ty: u16,
    pub word: u32,
}

impl Row {
    pub fn decode(bytes: &[u8]) -> Row {
        Row { kind: bytes[0], n: bytes[1], ty: u16_at(bytes, 2), word: u32_at(bytes, 4) }
    }

    pub fn encode(&self) -> [u8; ROW_BYTES] {
        let mut bytes = [0; ROW_BYTES];
        bytes[0] = self.kind;
        bytes[1] = self.n;
        put_u16(&mut bytes, 2, self.ty);
        put_u32(&mut bytes, 4, self.word);
        bytes
    }

    /// How many children the row has, by the table's column "children".
    pub fn children(&self) -> usize {
        match self.kind {
            kind::NATIVE | kind::FIX | kind::ISNIL | kind::ZIP | kind::PROJECT | kind::LIST_PROJECT => 1,
            kind::CONS | kind::LET => 2,
            kind::IF => 3,
            kind::APPLY => 1 + usize::from(self.n),
            kind::TUPLE => usize::from(self.n),
            _ => 0,
        }
    }

    /// Kind and fields, by the table's columns "kind" and "n, word"; unused fields are zero.
    pub fn fields_fit(&self, bend: Bend) -> bool {
        let n_unused = self.n == 0;
        let word_unused = self.word == 0;
        let last_name = MAX_WORD - u32::from(bend.is(Fault::LastNameRefused));
        let named = (1..=last_name).contains(&self.word);
        match self.kind {
            kind::STR | kind::FILE => n_unused,
            kind::TRUE | kind::FALSE | kind::NIL => n_unused && (word_unused || bend.is(Fault::UnusedWordTaken)),
            kind::VARIABLE | kind::FOREIGN | kind::FUTURE | kind::LET => n_unused && named,
            kind::NATIVE | kind::IF | kind::FIX | kind::CONS | kind::ISNIL => n_unused && word_unused,
            kind::APPLY => self.n <= 8 && word_unused,
            kind::ZIP => (self.n >= 1 || bend.is(Fault::EmptyMaskIsTyping)) && word_unused,
            kind::TUPLE | kind::PROJECT | kind::LIST_PROJECT => (1..=8).contains(&self.n) && word_unused,
            _ => false,
        }
    }
}

/// Cuts whole bytes into rows.
pub fn decode_rows(bytes: &[u8]) -> Vec<Row> {
    bytes.chunks_exact(ROW_BYTES).map(Row::decode).collect()
}

pub fn encode_rows(rows: &[Row]) -> Vec<u8> {
    rows.iter().flat_map(Row::encode).collect()
}

/// Refusals 7 and 13: "first row of bad kind, field or type number, or after the tree's end; row count if the tree is
/// unfinished."
pub fn first_malformed(rows: &[Row], type_count: usize, bend: Bend) -> Option<usize> {
    let mut awaited = 1;
    for (place, row) in rows.iter().enumerate() {
        let spare_taken = bend.is(Fault::RowsAfterEndTaken) && row.children() == 0;
        let after_the_end = awaited == 0 && !spare_taken;
        if after_the_end || !row.fields_fit(bend) || usize::from(row.ty) >= type_count {
            return Some(place);
        }
        if awaited > 0 {
            awaited = awaited - 1 + row.children();
        }
    }
    let unfinished_place =
        if bend.is(Fault::UnfinishedNamesLastRow) { rows.len().saturating_sub(1) } else { rows.len() };
    (awaited > 0).then_some(unfinished_place)
}

/// Where each row's subtree ends and which row is its parent, for rows that make one tree.
#[derive(Clone, Debug)]
pub struct Shape {
    /// The row after the last one of each row's subtree.
    end: Vec<usize>,
    /// Each row's parent and its place among the parent's children; none for row 0.
    parent: Vec<Option<(usize, usize)>>,
}

impl Shape {
    /// "Rows, counted from 0, stand parent first, children in order": from the last row back, each child's end is
    /// known before its parent's.
    pub fn of(rows: &[Row]) -> Shape {
        let mut end = vec![rows.len(); rows.len()];
        let mut parent = vec![None; rows.len()];
        for place in (0..rows.len()).rev() {
            let mut child = place + 1;
            for which in 0..rows[place].children() {
                if child < rows.len() {
                    parent[child] = Some((place, which));
                    child = end[child];
                }
            }
            end[place] = child;
        }
        Shape { end, parent }
    }

    /// The row number of a row's child; past the last row if the tree is unfinished.
    pub fn child(&self, place: usize, which: usize) -> usize {
        (0..which).fold(place + 1, |child, _| self.end.get(child).copied().unwrap_or(child))
    }

    pub fn parent(&self, place: usize) -> Option<(usize, usize)> {
        self.parent[place]
    }

    pub fn end(&self, place: usize) -> usize {
        self.end[place]
    }
}
