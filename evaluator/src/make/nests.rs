//! Terms nested in themselves as deep as their rows go: what measures stack, and the cost of depth.

use crate::make::records::written;
use crate::record::Entry;
use crate::rows::{kind, Row};
use crate::table::{file_of, Table};
use crate::types::TypeRow;

/// A way to nest: what stands before and behind the inner term at each level, and the innermost.
struct Nest {
    before: Vec<Row>,
    innermost: Row,
    behind: Vec<Row>,
    /// Whether the term is a Bool, or a list of them.
    is_bool: bool,
}

/// The types that the nests need.
struct Types {
    bool: u16,
    bools: u16,
    pair: u16,
    function: u16,
}

const X: u32 = 1;

fn row(kind: u8, ty: u16) -> Row {
    Row { kind, n: 0, ty, word: 0 }
}

fn worded(kind: u8, ty: u16, word: u32) -> Row {
    Row { kind, n: 0, ty, word }
}

fn counted(kind: u8, ty: u16, n: u8) -> Row {
    Row { kind, n, ty, word: 0 }
}

impl Types {
    fn cons_tails(&self) -> Nest {
        let before = vec![row(kind::CONS, self.bools), row(kind::TRUE, self.bool)];
        Nest { before, innermost: row(kind::NIL, self.bools), behind: vec![], is_bool: false }
    }

    /// A list as head of a list would need a new type at each level; isnil makes a Bool of it.
    fn cons_heads(&self) -> Nest {
        let before = vec![row(kind::ISNIL, self.bool), row(kind::CONS, self.bools)];
        Nest { before, innermost: row(kind::TRUE, self.bool), behind: vec![row(kind::NIL, self.bools)], is_bool: true }
    }

    fn if_conditions(&self) -> Nest {
        let behind = vec![row(kind::TRUE, self.bool), row(kind::FALSE, self.bool)];
        Nest { before: vec![row(kind::IF, self.bool)], innermost: row(kind::TRUE, self.bool), behind, is_bool: true }
    }

    fn first_elements(&self) -> Nest {
        let before = vec![counted(kind::PROJECT, self.bool, 1), counted(kind::TUPLE, self.pair, 2)];
        Nest { before, innermost: row(kind::TRUE, self.bool), behind: vec![row(kind::TRUE, self.bool)], is_bool: true }
    }

    fn native_functions(&self) -> Nest {
        let before = vec![counted(kind::APPLY, self.bool, 1), row(kind::NATIVE, self.function)];
        let innermost = worded(kind::VARIABLE, self.bool, X);
        Nest { before, innermost, behind: vec![row(kind::TRUE, self.bool)], is_bool: true }
    }

    fn let_bodies(&self) -> Nest {
        let before = vec![worded(kind::LET, self.bools, X), row(kind::NIL, self.bools)];
        Nest { before, innermost: worded(kind::VARIABLE, self.bools, X), behind: vec![], is_bool: false }
    }

    fn let_bounds(&self) -> Nest {
        let behind = vec![worded(kind::VARIABLE, self.bools, X)];
        let before = vec![worded(kind::LET, self.bools, X)];
        Nest { before, innermost: row(kind::NIL, self.bools), behind, is_bool: false }
    }
}

/// A term of one nest.
pub struct Nested {
    pub name: &'static str,
    types: Vec<TypeRow>,
    rows: Vec<Row>,
    /// The innermost row, its place and its type.
    innermost: (usize, u16),
}

/// A nest by its name.
type Way = (&'static str, fn(&Types) -> Nest);

const WAYS: [Way; 7] = [
    ("cons in cons's tail", Types::cons_tails),
    ("cons in cons's head", Types::cons_heads),
    ("if in if's condition", Types::if_conditions),
    ("tuple in tuple's first element", Types::first_elements),
    ("native function in native function", Types::native_functions),
    ("let in let's body", Types::let_bodies),
    ("let in let's bound term", Types::let_bounds),
];

/// Each nest with exactly so many rows, as deep as they go.
pub fn nests(rows: usize) -> impl Iterator<Item = Nested> {
    WAYS.into_iter().map(move |(name, way)| nested(name, rows, way))
}

/// One nest.
fn nested(name: &'static str, rows: usize, way: fn(&Types) -> Nest) -> Nested {
    let mut table = Table::default();
    let bool = table.bool();
    let bools = table.list(bool);
    let (pair, function) = (table.tuple(&[bool, bool]), table.native(&[(X as u16, bool)], bool));
    let nest = way(&Types { bool, bools, pair, function });
    let isnil = row(kind::ISNIL, bool);
    let mut made = if nest.is_bool { vec![] } else { vec![isnil] };
    let a_level = nest.before.len() + nest.behind.len();
    let levels = (rows - 1 - made.len()) / a_level;
    for _ in 0..levels {
        made.extend(&nest.before);
    }
    // Rows that make no further level go into the innermost term.
    match rows - 1 - (made.len() + levels * nest.behind.len()) {
        0 => made.push(nest.innermost),
        1 if nest.is_bool => made.extend([isnil, row(kind::NIL, bools)]),
        2 => made.extend([worded(kind::LET, nest.innermost.ty, X), nest.innermost, nest.innermost]),
        spare => panic!("{spare} rows to spare"),
    }
    let innermost = (made.len() - 1, made[made.len() - 1].ty);
    for _ in 0..levels {
        made.extend(&nest.behind);
    }
    assert_eq!(made.len(), rows);
    Nested { name, types: table.rows, rows: made, innermost }
}

impl Nested {
    pub fn file(&self) -> Vec<u8> {
        file_of(&self.types, &self.rows)
    }

    /// A sound record of the term.
    pub fn record(&self) -> Vec<u8> {
        written(&self.types, &[], 1, self.rows[0].ty, &self.rows)
    }

    /// A sound record of the term, the innermost row being call 1, and the row that may stand for it in a reply.
    pub fn waiting(&self) -> (Vec<u8>, Row) {
        let (place, ty) = self.innermost;
        let mut rows = self.rows.clone();
        rows[place] = worded(kind::FUTURE, ty, 1);
        let value = if ty == 0 { row(kind::TRUE, ty) } else { row(kind::NIL, ty) };
        (written(&self.types, &[Entry { number: 1, ty }], 2, self.rows[0].ty, &rows), value)
    }
}

#[cfg(test)]
mod tests {
    use super::*;
    use crate::fault::Bend;
    use crate::layout::{MAX_PROGRAM_ROWS, RECORD_BYTES};
    use crate::record::Record;

    #[test]
    fn nests_are_sound_at_every_size() {
        for rows in [512, 1_024, 2_048] {
            for nested in nests(rows) {
                assert!(Record::decode_sound(&nested.record(), Bend::NONE).is_some(), "{}, {rows} rows", nested.name);
                let (record, _) = nested.waiting();
                assert!(Record::decode_sound(&record, Bend::NONE).is_some(), "{}, {rows} rows, waiting", nested.name);
            }
        }
        assert!(
            nests(MAX_PROGRAM_ROWS).all(|nested| crate::load(&nested.file(), &mut vec![0; RECORD_BYTES]).refusal == 0)
        );
    }
}
