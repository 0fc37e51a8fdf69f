//! The type table: reading and writing type rows, what refusal 6 tests, and which types are ground.

use crate::fault::{Bend, Fault};
use crate::layout::{put_u16, u16_at, MAX_PARTS, TYPE_BYTES};

/// The forms of document 01, "Type row".
pub const STR: u8 = 1;
pub const FILE: u8 = 2;
pub const BOOL: u8 = 3;
pub const LIST: u8 = 4;
pub const TUPLE: u8 = 5;
pub const NATIVE: u8 = 6;
pub const FOREIGN: u8 = 7;

/// A named part of a type: an argument of a function, or (nameless) an element of a tuple.
#[derive(Clone, Copy, Debug, Default, PartialEq, Eq, Hash)]
pub struct Part {
    pub name: u16,
    pub ty: u16,
}

/// "form u8, n u8, result u16, eight pairs (name u16, type u16)"
#[derive(Clone, Copy, Debug, Default, PartialEq, Eq, Hash)]
pub struct TypeRow {
    pub form: u8,
    pub n: u8,
    pub result: u16,
    pub pairs: [Part; MAX_PARTS],
}

impl TypeRow {
    pub fn decode(bytes: &[u8]) -> TypeRow {
        let mut pairs = [Part::default(); MAX_PARTS];
        for (k, pair) in pairs.iter_mut().enumerate() {
            *pair = Part { name: u16_at(bytes, 4 + 4 * k), ty: u16_at(bytes, 6 + 4 * k) };
        }
        TypeRow { form: bytes[0], n: bytes[1], result: u16_at(bytes, 2), pairs }
    }

    pub fn encode(&self) -> [u8; TYPE_BYTES] {
        let mut bytes = [0; TYPE_BYTES];
        bytes[0] = self.form;
        bytes[1] = self.n;
        put_u16(&mut bytes, 2, self.result);
        for (k, pair) in self.pairs.iter().enumerate() {
            put_u16(&mut bytes, 4 + 4 * k, pair.name);
            put_u16(&mut bytes, 6 + 4 * k, pair.ty);
        }
        bytes
    }

    /// A plain type: Str, File or Bool.
    pub fn plain(form: u8) -> TypeRow {
        TypeRow { form, ..TypeRow::default() }
    }

    pub fn list(element: u16) -> TypeRow {
        TypeRow { form: LIST, result: element, ..TypeRow::default() }
    }

    /// A tuple or function type of at most eight parts.
    pub fn of_parts(form: u8, parts: &[Part], result: u16) -> TypeRow {
        let mut pairs = [Part::default(); MAX_PARTS];
        pairs[..parts.len()].copy_from_slice(parts);
        TypeRow { form, n: parts.len() as u8, result, pairs }
    }

    /// The pairs in use: a tuple's elements, a function's arguments.
    pub fn parts(&self) -> &[Part] {
        &self.pairs[..usize::from(self.n).min(MAX_PARTS)]
    }

    pub fn is_function(&self) -> bool {
        self.form == NATIVE || self.form == FOREIGN
    }
}

/// A table of types that has passed refusal 6, with the groundness of each worked out once.
#[derive(Clone, Debug)]
pub struct Types {
    pub rows: Vec<TypeRow>,
    ground: Vec<bool>,
}

impl Types {
    /// The table, or the place of its first bad row: refusal 6.
    pub fn check(rows: Vec<TypeRow>, bend: Bend) -> Result<Types, usize> {
        let mut types = Types { rows: Vec::with_capacity(rows.len()), ground: Vec::with_capacity(rows.len()) };
        for (place, row) in rows.iter().enumerate() {
            if !row_is_good(row, &types, bend) {
                let off = usize::from(bend.is(Fault::TypePlaceOffByOne));
                return Err(place + off);
            }
            if let Some(earlier) = types.rows.iter().position(|other| other == row) {
                // "No type row equals an earlier one": the later is the bad one (reading 6).
                if bend.is(Fault::EqualTypeNamesEarlier) {
                    return Err(earlier);
                }
                if !bend.is(Fault::EqualTypesTaken) {
                    return Err(place);
                }
            }
            let ground = types.ground_row(row, bend);
            types.rows.push(*row);
            types.ground.push(ground);
        }
        Ok(types)
    }

    pub fn count(&self) -> usize {
        self.rows.len()
    }

    pub fn row(&self, ty: u16) -> &TypeRow {
        &self.rows[usize::from(ty)]
    }

    pub fn is_ground(&self, ty: u16) -> bool {
        self.ground.get(usize::from(ty)).copied().unwrap_or(false)
    }

    pub fn form(&self, ty: u16) -> u8 {
        self.row(ty).form
    }

    /// A list type's element.
    pub fn element(&self, ty: u16) -> Option<u16> {
        let row = self.row(ty);
        (row.form == LIST).then_some(row.result)
    }

    /// "Str, File, Bool, lists of ground types and tuples of ground types are ground." The parts of a row stand
    /// before it, so going down through them meets answers already known.
    fn ground_row(&self, row: &TypeRow, bend: Bend) -> bool {
        match row.form {
            STR | FILE | BOOL => true,
            LIST => bend.is(Fault::GroundShallow) || self.is_ground(row.result),
            TUPLE => row.parts().iter().all(|part| self.is_ground(part.ty)),
            _ => false,
        }
    }
}

/// One type row by itself: form, n, unused fields, names, and the types it refers to (all of them earlier).
fn row_is_good(row: &TypeRow, earlier: &Types, bend: Bend) -> bool {
    let stands_before = |ty: u16| usize::from(ty) < earlier.count() + usize::from(bend.is(Fault::TypeRefersToItself));
    // "tuple (n 1 to 8, names 0), native function, foreign function (n 0 to 8 ...)"; n is unused in forms 1 to 4.
    let n_fits = match row.form {
        STR | FILE | BOOL | LIST => row.n == 0,
        TUPLE => (1..=8).contains(&row.n),
        NATIVE | FOREIGN => row.n <= 8,
        _ => false,
    };
    if !n_fits {
        return false;
    }
    // "a zero result means unused only in forms 1, 2, 3 and 5"
    let result_fits = match row.form {
        LIST | NATIVE | FOREIGN => stands_before(row.result),
        _ => row.result == 0,
    };
    // "Each type referred to has a smaller number than its user."
    let parts_stand_before = row.parts().iter().all(|part| stands_before(part.ty));
    // "names nonzero and distinct within the row"; a tuple's are 0.
    let names_fit = if row.is_function() {
        names_are_distinct(row.parts(), bend)
    } else {
        bend.is(Fault::TupleNamesTaken) || row.parts().iter().all(|part| part.name == 0)
    };
    // "Unused fields are zero."
    let rest_is_zero =
        bend.is(Fault::UnusedPairsTaken) || row.pairs[usize::from(row.n)..].iter().all(|pair| *pair == Part::default());
    // "A foreign function has ground arguments and a ground result."
    let ground_where_foreign = row.form != FOREIGN
        || ((bend.is(Fault::ForeignResultNotGround) || earlier.is_ground(row.result))
            && row.parts().iter().all(|part| earlier.is_ground(part.ty)));
    result_fits && parts_stand_before && names_fit && rest_is_zero && ground_where_foreign
}

fn names_are_distinct(parts: &[Part], bend: Bend) -> bool {
    parts.iter().enumerate().all(|(k, part)| {
        let repeated = parts[..k].iter().any(|before| before.name == part.name);
        part.name != 0 && (!repeated || bend.is(Fault::RepeatedNamesTaken))
    })
}
