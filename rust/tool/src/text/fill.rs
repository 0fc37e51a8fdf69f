//! Types filled in where a text leaves them out: each row gets the one type that its rule gives, children first.
//!
//! What is stated stays as it is; whether it is right is for the library to say.

use super::draft::{Draft, DraftRow, Stated};
use super::{wrong, Made, Spot, TextError};
use crate::bytes::{child_count, form, kind, Part, Row, TypeRow};
use crate::shape::{children_of, stands, Stand};
use crate::types::Types;
use crate::words::Words;

/// A routine with all its types; the table grows by what rows need.
pub fn program(draft: Draft) -> Result<Made, TextError> {
    let mut filler = Filler::new(draft, true);
    filler.fill()?;
    let rows = filler.rows();
    let row_spots = filler.draft.rows.iter().map(|row| row.spot).collect();
    Ok(Made { types: filler.draft.types.rows, rows, type_spots: filler.draft.type_spots, row_spots })
}

/// A reply's rows with all their types, from the type that its call is listed with.
pub fn reply(draft: Draft, listed: u16) -> Result<Vec<Row>, TextError> {
    let mut filler = Filler::new(draft, false);
    filler.expect(listed);
    filler.fill()?;
    Ok(filler.rows())
}

struct Filler {
    draft: Draft,
    plain: Vec<Row>,
    stands: Vec<Stand>,
    /// The type of each row, once it is known.
    known: Vec<Option<u16>>,
    open_table: bool,
}

impl Filler {
    fn new(draft: Draft, open_table: bool) -> Filler {
        let plain: Vec<Row> = draft.rows.iter().map(|row| row.row).collect();
        let stated = |row: &DraftRow| match row.stated {
            Stated::Type(ty) => Some(ty),
            _ => None,
        };
        let known = draft.rows.iter().map(stated).collect();
        Filler { stands: stands(&plain), plain, known, draft, open_table }
    }

    fn rows(&self) -> Vec<Row> {
        self.plain.iter().zip(&self.known).map(|(row, ty)| Row { ty: ty.unwrap_or(0), ..*row }).collect()
    }

    /// Goes down from the type that row 0 should have, as far as the rows fit it.
    fn expect(&mut self, listed: u16) {
        let mut wanted = vec![None; self.plain.len()];
        wanted[0] = Some(listed);
        for place in 0..self.plain.len() {
            let Some(ty) = wanted[place] else { continue };
            let types = &self.draft.types;
            let fits = match self.plain[place].kind {
                kind::STR => types.form(ty) == form::STR,
                kind::FILE => types.form(ty) == form::FILE,
                kind::TRUE | kind::FALSE => types.form(ty) == form::BOOL,
                kind::NIL | kind::CONS => types.form(ty) == form::LIST,
                kind::TUPLE => types.elements(ty).is_some_and(|parts| parts.len() == child_count(&self.plain[place])),
                _ => false,
            };
            if !fits {
                continue;
            }
            let ty = *self.known[place].get_or_insert(ty);
            for (k, child) in children_of(&self.plain, &self.stands, place).into_iter().enumerate() {
                wanted[child] = match self.plain[place].kind {
                    kind::CONS if k == 0 => types.element(ty),
                    kind::CONS => Some(ty),
                    _ => types.elements(ty).and_then(|parts| parts.get(k)).map(|part| part.ty),
                };
            }
        }
    }

    /// Fills row by row; a row's turn comes when its last descendant's has been.
    fn fill(&mut self) -> Result<(), TextError> {
        let mut around: Vec<usize> = Vec::new();
        for place in 0..self.plain.len() {
            around.push(place);
            while let Some(&last) = around.last() {
                if self.stands[last].end != place + 1 {
                    break;
                }
                around.pop();
                if self.known[last].is_none() {
                    self.known[last] = Some(self.derived(last)?);
                }
            }
        }
        Ok(())
    }

    fn spot(&self, place: usize) -> Spot {
        self.draft.rows[place].spot
    }

    fn child(&self, place: usize, which: usize) -> u16 {
        children_of(&self.plain, &self.stands, place).get(which).and_then(|child| self.known[*child]).unwrap_or(0)
    }

    /// The one type that a row's rule gives it.
    fn derived(&mut self, place: usize) -> Result<u16, TextError> {
        let row = self.plain[place];
        let spot = self.spot(place);
        match row.kind {
            kind::STR => self.number(TypeRow::new(form::STR, 0, &[]), spot),
            kind::FILE => self.number(TypeRow::new(form::FILE, 0, &[]), spot),
            kind::TRUE | kind::FALSE | kind::ISNIL => self.number(TypeRow::new(form::BOOL, 0, &[]), spot),
            kind::VARIABLE => self.variable(place),
            kind::NATIVE => self.native(place),
            kind::FOREIGN => {
                wrong(spot, "a foreign function needs its type: foreign N : foreign(..) -> T, or a declared tool")
            }
            kind::FUTURE => wrong(spot, "a future needs its type: future N : T"),
            kind::NIL => self.nil(place),
            kind::APPLY => {
                let function = self.child(place, 0);
                match self.draft.types.row(function).filter(|ty| ty.is_function()) {
                    Some(ty) => Ok(ty.result),
                    None => wrong(spot, format!("what is applied is no function: it has type {}", self.told(function))),
                }
            }
            kind::IF => Ok(self.child(place, 1)),
            kind::LET => Ok(self.child(place, 1)),
            kind::FIX => {
                let child = self.child(place, 0);
                match self.draft.types.row(child).filter(|ty| ty.form == form::NATIVE && ty.n > 0) {
                    Some(ty) => Ok(ty.pairs[0].ty),
                    None => {
                        wrong(spot, format!("fix needs a native function of itself below it, not {}", self.told(child)))
                    }
                }
            }
            kind::CONS => self.number(TypeRow::new(form::LIST, self.child(place, 0), &[]), spot),
            kind::ZIP => self.zip(place),
            kind::TUPLE => {
                let parts: Vec<Part> =
                    (0..usize::from(row.n)).map(|k| Part { name: 0, ty: self.child(place, k) }).collect();
                self.number(TypeRow::new(form::TUPLE, 0, &parts), spot)
            }
            kind::PROJECT => self.element_at(self.child(place, 0), row.n, spot),
            _ => self.list_project(place),
        }
    }

    fn variable(&self, place: usize) -> Result<u16, TextError> {
        let name = self.plain[place].word;
        let mut below = place;
        while let Some((binder, which)) = self.stands[below].parent {
            let row = self.plain[binder];
            let parts = match (&self.draft.rows[binder].stated, row.kind) {
                (Stated::Arguments(parts), kind::NATIVE) => parts.as_slice(),
                (Stated::Type(ty), kind::NATIVE) => native_parts(&self.draft.types, *ty),
                (_, kind::LET) if row.word == name && which == 1 => return Ok(self.child(binder, 0)),
                _ => &[],
            };
            if let Some(part) = parts.iter().find(|part| u32::from(part.name) == name) {
                return Ok(part.ty);
            }
            below = binder;
        }
        wrong(self.spot(place), "no let or native function around binds this name, and no tool is called so")
    }

    fn native(&mut self, place: usize) -> Result<u16, TextError> {
        let spot = self.spot(place);
        let Stated::Arguments(parts) = self.draft.rows[place].stated.clone() else {
            return wrong(spot, "a native function needs its arguments: native(name: T, ..), or its type: native : T");
        };
        self.number(TypeRow::new(form::NATIVE, self.child(place, 0), &parts), spot)
    }

    /// A nil has the type of the cons rows that it ends.
    fn nil(&mut self, place: usize) -> Result<u16, TextError> {
        let spot = self.spot(place);
        match self.stands[place].parent {
            Some((parent, 1)) if self.plain[parent].kind == kind::CONS => {
                let element = self.child(parent, 0);
                match self.known[parent] {
                    Some(ty) => Ok(ty),
                    None => self.number(TypeRow::new(form::LIST, element, &[]), spot),
                }
            }
            _ => wrong(spot, "an empty list needs its type: nil : List T, or [] : List T"),
        }
    }

    fn zip(&mut self, place: usize) -> Result<u16, TextError> {
        let (row, spot) = (self.plain[place], self.spot(place));
        let child = self.child(place, 0);
        let Some(inner) = self.draft.types.row(child).copied().filter(|ty| ty.is_function()) else {
            return wrong(spot, format!("zip needs a function below it, not {}", self.told(child)));
        };
        let mut parts = inner.parts().to_vec();
        for (k, part) in parts.iter_mut().enumerate() {
            if row.n >> k & 1 == 1 {
                part.ty = self.number(TypeRow::new(form::LIST, part.ty, &[]), spot)?;
            }
        }
        let result = self.number(TypeRow::new(form::LIST, inner.result, &[]), spot)?;
        self.number(TypeRow::new(inner.form, result, &parts), spot)
    }

    fn list_project(&mut self, place: usize) -> Result<u16, TextError> {
        let (row, spot) = (self.plain[place], self.spot(place));
        let child = self.child(place, 0);
        let Some(tuple) = self.draft.types.element(child) else {
            return wrong(spot, format!("list-project needs a list of tuples below it, not {}", self.told(child)));
        };
        let element = self.element_at(tuple, row.n, spot)?;
        self.number(TypeRow::new(form::LIST, element, &[]), spot)
    }

    fn element_at(&self, tuple: u16, n: u8, spot: Spot) -> Result<u16, TextError> {
        let parts = self.draft.types.elements(tuple).unwrap_or(&[]);
        match parts.get(usize::from(n).wrapping_sub(1)) {
            Some(part) => Ok(part.ty),
            None => wrong(spot, format!("there is no place {n} in {}", self.told(tuple))),
        }
    }

    fn told(&self, ty: u16) -> String {
        match self.draft.types.row(ty) {
            Some(row) => Words::new(&self.draft.types).written(row),
            None => format!("type {ty}"),
        }
    }

    fn number(&mut self, row: TypeRow, spot: Spot) -> Result<u16, TextError> {
        if !self.open_table && self.draft.types.find(&row).is_none() {
            let words = Words::new(&self.draft.types).written(&row);
            return wrong(spot, format!("this would have the type {words}, which the record does not know"));
        }
        self.draft.number_of(row, spot)
    }
}

fn native_parts(types: &Types, ty: u16) -> &[Part] {
    types.row(ty).filter(|row| row.form == form::NATIVE).map_or(&[], TypeRow::parts)
}
