//! Typing, row by row: document 01's section of that name and the paper's rules 3 to 34; refusals 9 and 15.

use crate::fault::{Bend, Fault};
use crate::rows::{kind, Row, Shape};
use crate::types::{Part, TypeRow, Types, BOOL, FILE, FOREIGN, NATIVE, STR, TUPLE};

/// Rows that make one tree, with their types: what a row's own rule may look at.
pub struct Typing<'a> {
    pub types: &'a Types,
    pub rows: &'a [Row],
    pub shape: &'a Shape,
    pub bend: Bend,
}

impl Typing<'_> {
    /// "First row that fails typing", judged in row order (reading 1).
    pub fn first_failing(&self) -> Option<usize> {
        if self.bend.is(Fault::ChildrenJudgedFirst) {
            return (0..self.rows.len()).rev().find(|&place| !self.holds(place));
        }
        (0..self.rows.len()).find(|&place| !self.holds(place))
    }

    /// "A row fails if its own rule fails, given the types stated by its children and the binders around it."
    fn holds(&self, place: usize) -> bool {
        let types = self.types;
        let row = self.rows[place];
        let own = types.row(row.ty);
        let child = |which| self.rows[self.shape.child(place, which)];
        match row.kind {
            // "Literals have their own type." Rules 3, 4, 16, 17.
            kind::STR => own.form == STR,
            kind::FILE => own.form == FILE,
            kind::TRUE | kind::FALSE => own.form == BOOL,
            // "A variable has its binder's type; unbound fails." Rule 8.
            kind::VARIABLE => self.binder_type(place, row.word as u16) == Some(row.ty),
            // "Native and foreign functions have their form of function type; a native body has the result type."
            // Rules 9 and 10.
            kind::NATIVE => own.form == NATIVE && child(0).ty == own.result,
            kind::FOREIGN => own.form == FOREIGN,
            // "Apply: function type with n arguments, types equal in order; the row has the result type." Rule 11.
            kind::APPLY => {
                let function = types.row(child(0).ty);
                let count_fits = function.n == row.n || self.bend.is(Fault::SpareArgumentsTaken) && function.n < row.n;
                function.is_function()
                    && count_fits
                    && function.parts().iter().enumerate().all(|(k, part)| child(1 + k).ty == part.ty)
                    && row.ty == function.result
            }
            // "A future has the type it states." Rule 13.
            kind::FUTURE => true,
            // "If: Bool condition, both branches of the row's type." Rule 18.
            kind::IF => {
                let else_fits = child(2).ty == row.ty || self.bend.is(Fault::ElseNotTyped);
                types.form(child(0).ty) == BOOL && child(1).ty == row.ty && else_fits
            }
            // "Fix (house)". Rule 20.
            kind::FIX => self.fix_holds(row, child(0)),
            // "Nil has a list type; cons takes head and tail by it; isnil is Bool over a list." Rules 23 to 25.
            kind::NIL => types.element(row.ty).is_some(),
            kind::CONS => types.element(row.ty) == Some(child(0).ty) && child(1).ty == row.ty,
            kind::ISNIL => {
                own.form == BOOL && (types.element(child(0).ty).is_some() || self.bend.is(Fault::IsnilOfAnything))
            }
            // "Zip: mask within the child's arguments; same function form and names; List around each masked argument
            // and the result." Rule 27.
            kind::ZIP => self.zip_holds(row.n, own, types.row(child(0).ty)),
            // "Tuple by element." Rule 30.
            kind::TUPLE => {
                own.form == TUPLE
                    && own.n == row.n
                    && own.parts().iter().enumerate().all(|(k, part)| child(k).ty == part.ty)
            }
            // "Project and list project: place within the tuple; the latter from a list of tuples to a list."
            // Rules 31 and 32.
            kind::PROJECT => self.element_of_tuple(child(0).ty, row.n) == Some(row.ty),
            kind::LIST_PROJECT => {
                let from = types.element(child(0).ty).and_then(|tuple| self.element_of_tuple(tuple, row.n));
                let to = types.element(row.ty);
                from.is_some() && (from == to || to.is_some() && self.bend.is(Fault::ListProjectToAnyList))
            }
            // "Let has its body's type." Rule 34.
            kind::LET => child(1).ty == row.ty,
            _ => false,
        }
    }

    /// "The innermost binder wins": the first one met on the way up from the variable.
    fn binder_type(&self, variable: usize, name: u16) -> Option<u16> {
        let mut below = variable;
        let mut found = None;
        while let Some((binder, which)) = self.shape.parent(below) {
            let row = self.rows[binder];
            let bound = match row.kind {
                // "A native function binds its type's names in its body."
                kind::NATIVE if self.types.form(row.ty) == NATIVE => {
                    self.types.row(row.ty).parts().iter().find(|part| part.name == name).map(|part| part.ty)
                }
                // "Let binds its name, with the bound term's type, in its body only."
                kind::LET if row.word == u32::from(name) && (which == 1 || self.bend.is(Fault::LetBindsInBound)) => {
                    Some(self.rows[self.shape.child(binder, 0)].ty)
                }
                _ => None,
            };
            if bound.is_some() && !self.bend.is(Fault::OutermostBinderWins) {
                return bound;
            }
            found = bound.or(found);
            below = binder;
        }
        found
    }

    /// "The child row is kind 6, its first argument has a native function type with exactly the other names and types,
    /// in order, and the same result; the row has that type." Reading 2: the child also states a native type.
    fn fix_holds(&self, row: Row, child: Row) -> bool {
        let given = self.types.row(child.ty);
        let Some((first, others)) = given.parts().split_first() else {
            return false;
        };
        let wanted = self.types.row(first.ty);
        let same =
            |(a, b): (&Part, &Part)| a.ty == b.ty && (a.name == b.name || self.bend.is(Fault::FixNamesNotCompared));
        child.kind == kind::NATIVE
            && given.form == NATIVE
            && (wanted.form == NATIVE || wanted.form == FOREIGN && self.bend.is(Fault::FixOfForeignType))
            && wanted.parts().len() == others.len()
            && wanted.parts().iter().zip(others).all(same)
            && (wanted.result == given.result || self.bend.is(Fault::FixResultNotCompared))
            && row.ty == first.ty
    }

    fn zip_holds(&self, mask: u8, own: &TypeRow, inner: &TypeRow) -> bool {
        let list_of = |ty: u16| self.types.element(ty);
        let mask_within = u32::from(mask) < 1 << inner.n || self.bend.is(Fault::MaskBeyondArguments);
        let same_form = own.form == inner.form || own.is_function() && self.bend.is(Fault::ZipFormNotCompared);
        inner.is_function()
            && mask != 0
            && mask_within
            && same_form
            && own.n == inner.n
            && list_of(own.result) == Some(inner.result)
            && own.parts().iter().zip(inner.parts()).enumerate().all(|(k, (outer, inner))| {
                let masked = mask >> k & 1 == 1;
                let around = if masked { list_of(outer.ty) == Some(inner.ty) } else { outer.ty == inner.ty };
                around && (outer.name == inner.name || self.bend.is(Fault::ZipNamesNotCompared))
            })
    }

    /// The type at a place, counted from 1, of a tuple type that has it.
    fn element_of_tuple(&self, tuple: u16, place: u8) -> Option<u16> {
        let row = self.types.row(tuple);
        let parts = if row.form == TUPLE { row.parts() } else { &[] };
        parts.get(usize::from(place).checked_sub(1)?).map(|part| part.ty)
    }
}
