//! Types and rows in words: the text form that people read and `make` reads back.

use std::borrow::Cow;
use std::fmt::Write;

use crate::bytes::{form, has_kind, kind, Part, Row, TypeRow};
use crate::types::Types;

/// A type longer than this is told by its name, and written out only where it is declared.
const LONGEST_IN_LINE: usize = 24;

/// The words of one type table.
#[derive(Debug)]
pub struct Words<'a> {
    pub types: &'a Types,
    /// Each type, in full if it is short, else by its name.
    short: Vec<String>,
}

impl<'a> Words<'a> {
    pub fn new(types: &'a Types) -> Words<'a> {
        let mut words = Words { types, short: Vec::with_capacity(types.count()) };
        for (place, row) in types.rows.iter().enumerate() {
            let later = |ty: u16| usize::from(ty) >= place;
            let has_result = !matches!(row.form, form::STR | form::FILE | form::BOOL | form::TUPLE);
            let whole = !(row.parts().iter().any(|part| later(part.ty)) || has_result && later(row.result));
            let stands_before = types.rows[..place].contains(row);
            let written = words.written(row);
            let short = written.len() <= LONGEST_IN_LINE && !stands_before && whole && row.is_readable();
            words.short.push(if short { written } else { format!("t{place}") });
        }
        words
    }

    /// A type, in full if it is short, else by its name: what a row is told with.
    pub fn ty(&self, ty: u16) -> Cow<'_, str> {
        self.short.get(usize::from(ty)).map_or_else(|| format!("t{ty}").into(), |short| short.as_str().into())
    }

    /// A type as a part of another: a function by its name, so that what belongs to which arrow is plain.
    fn part(&self, ty: u16) -> Cow<'_, str> {
        match self.types.row(ty) {
            Some(row) if row.is_function() => format!("t{ty}").into(),
            _ => self.ty(ty),
        }
    }

    /// A type with its number, and written out if it is known by its name: what a fault is told with.
    pub fn told(&self, ty: u16) -> String {
        let named = format!("t{ty}");
        match self.types.row(ty) {
            None => format!("{named}, which is not in the table"),
            Some(row) if self.ty(ty) == named => format!("{named} = {}", self.written(row)),
            Some(_) => format!("{}, type {ty}", self.ty(ty)),
        }
    }

    /// A type row written out once, its parts as short as they go.
    pub fn written(&self, row: &TypeRow) -> String {
        let joined = |told: &dyn Fn(&Part) -> String| row.parts().iter().map(told).collect::<Vec<_>>().join(", ");
        match row.form {
            form::STR => "Str".to_string(),
            form::FILE => "File".to_string(),
            form::BOOL => "Bool".to_string(),
            form::LIST => format!("List {}", self.part(row.result)),
            form::TUPLE => format!("{{{}}}", joined(&|part| self.part(part.ty).into_owned())),
            form::NATIVE | form::FOREIGN => {
                let word = if row.form == form::NATIVE { "native" } else { "foreign" };
                let arguments = joined(&|part| format!("n{}: {}", part.name, self.part(part.ty)));
                format!("{word}({arguments}) -> {}", self.part(row.result))
            }
            _ => type_fields(row),
        }
    }

    /// A row without its type.
    pub fn row(&self, row: &Row) -> String {
        let mut told = String::new();
        self.tell(&mut told, row);
        told
    }

    fn tell(&self, told: &mut String, row: &Row) {
        let name = kind_name(row.kind);
        // Writing to a string does not fail.
        let _ = match row.kind {
            kind::STR | kind::FILE | kind::FOREIGN | kind::FUTURE => write!(told, "{name} {}", row.word),
            kind::VARIABLE => write!(told, "n{}", row.word),
            kind::LET => write!(told, "let n{}", row.word),
            kind::APPLY | kind::TUPLE | kind::PROJECT | kind::LIST_PROJECT => write!(told, "{name} {}", row.n),
            kind::ZIP => write!(told, "zip {}", mask(row.n)),
            _ if has_kind(row) => told.write_str(name),
            _ => told.write_str(&row_fields(row)),
        };
    }

    /// Tells a row with the type that it states.
    pub fn tell_stated(&self, told: &mut String, row: &Row) {
        self.tell(told, row);
        if has_kind(row) {
            told.push_str(if row.kind == kind::LET { " = : " } else { " : " });
            told.push_str(&self.ty(row.ty));
        }
    }
}

/// The arguments of a mask, counted from 1.
fn mask(bits: u8) -> String {
    let places: Vec<String> = (0..8).filter(|k| bits >> k & 1 == 1).map(|k| (k + 1).to_string()).collect();
    if places.is_empty() {
        "0".to_string()
    } else {
        places.join(",")
    }
}

/// A row field by field, for one that cannot be told otherwise.
pub fn row_fields(row: &Row) -> String {
    format!("? kind {}, n {}, type {}, word {}", row.kind, row.n, row.ty, row.word)
}

/// A type row field by field, for one that cannot be told otherwise; pairs behind the last that is not zero are left out.
pub fn type_fields(row: &TypeRow) -> String {
    let used = row.pairs.iter().rposition(|pair| (pair.name, pair.ty) != (0, 0)).map_or(0, |last| last + 1);
    let pairs: Vec<String> = row.pairs[..used].iter().map(|pair| format!("{}:{}", pair.name, pair.ty)).collect();
    let pairs = if pairs.is_empty() { "all zero".to_string() } else { pairs.join(" ") };
    format!("? form {}, n {}, result {}, pairs {pairs}", row.form, row.n, row.result)
}

/// A kind's name, for rules and faults.
pub fn kind_name(kind: u8) -> &'static str {
    const NAMES: [&str; 20] = [
        "?",
        "str",
        "file",
        "true",
        "false",
        "variable",
        "native",
        "foreign",
        "apply",
        "future",
        "if",
        "fix",
        "nil",
        "cons",
        "isnil",
        "zip",
        "tuple",
        "project",
        "list-project",
        "let",
    ];
    NAMES.get(usize::from(kind)).unwrap_or(&"?")
}
