//! A type table that grows by need, and rows written by hand: what makers and tests build programs with.

use crate::layout::*;
use crate::rows::{encode_rows, kind, Row};
use crate::types::{Part, TypeRow, BOOL, FILE, FOREIGN, NATIVE, STR, TUPLE};

/// A table without equal rows; asking for a type gives its number, old or new.
#[derive(Clone, Debug, Default)]
pub struct Table {
    pub rows: Vec<TypeRow>,
}

impl Table {
    pub fn number(&mut self, row: TypeRow) -> u16 {
        let known = self.find(&row);
        if known.is_none() {
            self.rows.push(row);
        }
        known.unwrap_or(self.rows.len() as u16 - 1)
    }

    fn find(&self, row: &TypeRow) -> Option<u16> {
        self.rows.iter().position(|other| other == row).map(|number| number as u16)
    }

    /// The number of a row that is already there, or that still finds room.
    pub fn number_if_room(&mut self, row: TypeRow) -> Option<u16> {
        let has_room = self.rows.len() < MAX_TYPES;
        self.find(&row).or_else(|| has_room.then(|| self.number(row)))
    }

    pub fn str(&mut self) -> u16 {
        self.number(TypeRow::plain(STR))
    }

    pub fn file(&mut self) -> u16 {
        self.number(TypeRow::plain(FILE))
    }

    pub fn bool(&mut self) -> u16 {
        self.number(TypeRow::plain(BOOL))
    }

    pub fn list(&mut self, element: u16) -> u16 {
        self.number(TypeRow::list(element))
    }

    pub fn tuple(&mut self, elements: &[u16]) -> u16 {
        let parts: Vec<Part> = elements.iter().map(|&ty| Part { name: 0, ty }).collect();
        self.number(TypeRow::of_parts(TUPLE, &parts, 0))
    }

    pub fn native(&mut self, arguments: &[(u16, u16)], result: u16) -> u16 {
        self.number(TypeRow::of_parts(NATIVE, &parts_of(arguments), result))
    }

    pub fn foreign(&mut self, arguments: &[(u16, u16)], result: u16) -> u16 {
        self.number(TypeRow::of_parts(FOREIGN, &parts_of(arguments), result))
    }
}

fn parts_of(arguments: &[(u16, u16)]) -> Vec<Part> {
    arguments.iter().map(|&(name, ty)| Part { name, ty }).collect()
}

/// A program file of these types and rows, whatever they are worth.
pub fn file_of(types: &[TypeRow], rows: &[Row]) -> Vec<u8> {
    let mut file = Vec::with_capacity(FILE_HEAD + types.len() * TYPE_BYTES + rows.len() * ROW_BYTES);
    file.extend_from_slice(FILE_MARK);
    file.extend_from_slice(&VERSION.to_le_bytes());
    file.push(0);
    file.extend_from_slice(&(types.len() as u16).to_le_bytes());
    file.extend_from_slice(&(rows.len() as u16).to_le_bytes());
    for row in types {
        file.extend_from_slice(&row.encode());
    }
    file.extend_from_slice(&encode_rows(rows));
    file
}

/// A reply of these rows to a number.
pub fn reply_of(number: u32, rows: &[Row]) -> Vec<u8> {
    let mut reply = Vec::with_capacity(REPLY_HEAD + rows.len() * ROW_BYTES);
    reply.extend_from_slice(&number.to_le_bytes());
    reply.extend_from_slice(&(rows.len() as u16).to_le_bytes());
    reply.extend_from_slice(&[0, 0]);
    reply.extend_from_slice(&encode_rows(rows));
    reply
}

/// A row over its children's rows.
pub fn over(row: Row, children: &[Vec<Row>]) -> Vec<Row> {
    let mut rows = vec![row];
    for child in children {
        rows.extend_from_slice(child);
    }
    rows
}

/// A row without n and word over its children's rows.
pub fn plain(kind: u8, ty: u16, children: &[Vec<Row>]) -> Vec<Row> {
    over(Row { kind, n: 0, ty, word: 0 }, children)
}

/// A childless row.
pub fn leaf(kind: u8, ty: u16, word: u32) -> Vec<Row> {
    vec![Row { kind, n: 0, ty, word }]
}

pub fn apply(ty: u16, function: Vec<Row>, arguments: &[Vec<Row>]) -> Vec<Row> {
    let mut children = vec![function];
    children.extend_from_slice(arguments);
    over(Row { kind: kind::APPLY, n: arguments.len() as u8, ty, word: 0 }, &children)
}

pub fn tuple(ty: u16, elements: &[Vec<Row>]) -> Vec<Row> {
    over(Row { kind: kind::TUPLE, n: elements.len() as u8, ty, word: 0 }, elements)
}

pub fn let_in(ty: u16, name: u16, bound: Vec<Row>, body: Vec<Row>) -> Vec<Row> {
    over(Row { kind: kind::LET, n: 0, ty, word: u32::from(name) }, &[bound, body])
}

/// A row with n and without word over one child: zip, project, list project.
pub fn counted(kind: u8, n: u8, ty: u16, child: Vec<Row>) -> Vec<Row> {
    over(Row { kind, n, ty, word: 0 }, &[child])
}

/// A list of elements, each given as rows.
pub fn list(ty: u16, elements: &[Vec<Row>]) -> Vec<Row> {
    let mut rows = Vec::new();
    for element in elements {
        rows.push(Row { kind: kind::CONS, n: 0, ty, word: 0 });
        rows.extend_from_slice(element);
    }
    rows.push(Row { kind: kind::NIL, n: 0, ty, word: 0 });
    rows
}
