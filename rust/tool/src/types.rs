//! The type table: what refusal 6 finds wrong with a row, which types are ground, and types by what they are made of.

use crate::bytes::{form, Part, TypeRow, MAX_PARTS};

/// A table of types, of any worth.
#[derive(Clone, Debug, Default)]
pub struct Types {
    pub rows: Vec<TypeRow>,
    ground: Vec<bool>,
}

impl Types {
    pub fn new(rows: Vec<TypeRow>) -> Types {
        let mut types = Types { rows: Vec::with_capacity(rows.len()), ground: Vec::with_capacity(rows.len()) };
        rows.into_iter().for_each(|row| types.push(row));
        types
    }

    /// Adds a row. What it is made of stands before it, so that whether it is ground is known at once.
    pub fn push(&mut self, row: TypeRow) {
        let ground = match row.form {
            form::STR | form::FILE | form::BOOL => true,
            form::LIST => self.is_ground(row.result),
            form::TUPLE => row.parts().iter().all(|part| self.is_ground(part.ty)),
            _ => false,
        };
        self.rows.push(row);
        self.ground.push(ground);
    }

    pub fn count(&self) -> usize {
        self.rows.len()
    }

    pub fn row(&self, ty: u16) -> Option<&TypeRow> {
        self.rows.get(usize::from(ty))
    }

    /// The form of a type; 0 where there is no such type.
    pub fn form(&self, ty: u16) -> u8 {
        self.row(ty).map_or(0, |row| row.form)
    }

    pub fn is_ground(&self, ty: u16) -> bool {
        self.ground.get(usize::from(ty)).copied().unwrap_or(false)
    }

    /// The element of a list type.
    pub fn element(&self, ty: u16) -> Option<u16> {
        self.row(ty).filter(|row| row.form == form::LIST).map(|row| row.result)
    }

    /// The parts of a tuple type.
    pub fn elements(&self, ty: u16) -> Option<&[Part]> {
        self.row(ty).filter(|row| row.form == form::TUPLE).map(TypeRow::parts)
    }

    /// The number of a type row that is in the table.
    pub fn find(&self, row: &TypeRow) -> Option<u16> {
        self.rows.iter().position(|other| other == row).map(|place| place as u16)
    }

    /// The number of a plain type: Str, File or Bool.
    pub fn plain(&self, form: u8) -> Option<u16> {
        self.find(&TypeRow::new(form, 0, &[]))
    }

    /// The number of the list type over an element.
    pub fn list_of(&self, element: u16) -> Option<u16> {
        self.find(&TypeRow::new(form::LIST, element, &[]))
    }

    /// The first bad row and why it is bad.
    pub fn fault(&self) -> Option<(usize, String)> {
        (0..self.count()).find_map(|place| self.row_fault(place).map(|why| (place, why)))
    }

    /// Why a row is bad, the rows before it being good.
    fn row_fault(&self, place: usize) -> Option<String> {
        let row = &self.rows[place];
        field_fault(row, place).or_else(|| {
            let stranger = |ty: u16| row.form == form::FOREIGN && !self.is_ground(ty);
            let argument = row.parts().iter().position(|part| stranger(part.ty));
            let says = "which is not ground; a foreign function takes and gives ground types only";
            if stranger(row.result) {
                return Some(format!("its result is type {}, {says}", row.result));
            }
            if let Some(k) = argument {
                return Some(format!("its argument {} is type {}, {says}", k + 1, row.parts()[k].ty));
            }
            let equal = self.rows[..place].iter().position(|other| other == row)?;
            Some(format!("it equals type {equal}; no type may stand twice"))
        })
    }
}

/// What is wrong with a type row's own fields: form, n, result, parts, names, and what must be zero.
fn field_fault(row: &TypeRow, place: usize) -> Option<String> {
    let later = |ty: u16| usize::from(ty) >= place;
    let has_n = matches!(row.form, form::TUPLE | form::NATIVE | form::FOREIGN);
    let has_result = matches!(row.form, form::LIST | form::NATIVE | form::FOREIGN);
    if !row.is_readable() {
        return Some(format!("form {} is unknown; forms are 1 to 7", row.form));
    }
    if !has_n && row.n != 0 {
        return Some(format!("field n is {}; it must be 0, being unused in this form", row.n));
    }
    let least = usize::from(row.form == form::TUPLE);
    if !(least..=MAX_PARTS).contains(&usize::from(row.n)) {
        return Some(format!("field n is {}; it must be {least} to 8", row.n));
    }
    if !has_result && row.result != 0 {
        return Some(format!("field result is {}; it must be 0, being unused in this form", row.result));
    }
    if has_result && later(row.result) {
        return Some(format!("field result is type {}; it must be a type before this one", row.result));
    }
    for (k, pair) in row.pairs.iter().enumerate() {
        let at = k + 1;
        if k >= usize::from(row.n) {
            if *pair != Part::default() {
                return Some(format!(
                    "pair {at} is name {}, type {}; it must be zero, being unused",
                    pair.name, pair.ty
                ));
            }
        } else if later(pair.ty) {
            return Some(format!("pair {at} is of type {}; it must be a type before this one", pair.ty));
        } else if row.form == form::TUPLE && pair.name != 0 {
            return Some(format!(
                "pair {at} has name {}; a tuple's elements have no names, so it must be 0",
                pair.name
            ));
        } else if row.is_function() && pair.name == 0 {
            return Some(format!("pair {at} has name 0; an argument's name is 1 to 65,535"));
        } else if row.is_function() && row.pairs[..k].iter().any(|before| before.name == pair.name) {
            return Some(format!("pair {at} has name {}, as an argument before it; names must differ", pair.name));
        }
    }
    None
}
