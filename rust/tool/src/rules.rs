//! Why a row fails typing: the rule of its kind, the part that offends, the type found there and the type wanted.
//!
//! Children are judged in order, then the row itself, but the row first if its type is of the wrong form.

use crate::bytes::{form, kind, Part, Row, TypeRow};
use crate::shape::{children_of, Stand};
use crate::types::Types;
use crate::words::Words;

/// Why a row fails its rule.
#[derive(Clone, Debug, PartialEq, Eq)]
pub struct Misfit {
    pub rule: &'static str,
    pub at: String,
    pub found: String,
    pub wanted: String,
}

/// Rows that make one tree over good types.
#[derive(Debug)]
pub struct Rules<'a> {
    pub types: &'a Types,
    pub rows: &'a [Row],
    pub stands: &'a [Stand],
    pub words: &'a Words<'a>,
}

impl Rules<'_> {
    /// The first row that fails.
    pub fn first_misfit(&self) -> Option<(usize, Misfit)> {
        (0..self.rows.len()).find_map(|place| self.misfit(place).map(|misfit| (place, misfit)))
    }

    fn misfit(&self, place: usize) -> Option<Misfit> {
        let row = self.rows[place];
        let (at, found, wanted) = match row.kind {
            kind::STR => self.own_form(row, form::STR),
            kind::FILE => self.own_form(row, form::FILE),
            kind::TRUE | kind::FALSE => self.own_form(row, form::BOOL),
            kind::VARIABLE => self.variable(place),
            kind::NATIVE => self.native(place),
            kind::FOREIGN => self.own_form(row, form::FOREIGN),
            kind::APPLY => self.apply(place),
            kind::IF => self.branches(place),
            kind::FIX => self.fix(place),
            kind::NIL => self.own_form(row, form::LIST),
            kind::CONS => self.cons(place),
            kind::ISNIL => self.own_form(row, form::BOOL).or_else(|| self.child_form(place, form::LIST)),
            kind::ZIP => self.zip(place),
            kind::TUPLE => self.tuple(place),
            kind::PROJECT => self.project(place),
            kind::LIST_PROJECT => self.list_project(place),
            kind::LET => self.body(place),
            _ => None,
        }?;
        Some(Misfit { rule: rule(row.kind), at, found, wanted })
    }

    fn child(&self, place: usize, which: usize) -> usize {
        children_of(self.rows, self.stands, place)[which]
    }

    fn stated(&self, place: usize) -> u16 {
        self.rows[place].ty
    }

    fn told(&self, ty: u16) -> String {
        self.words.told(ty)
    }

    /// A row that states another type than the one wanted.
    fn same(&self, place: usize, wanted: u16) -> Offence {
        let found = self.stated(place);
        (found != wanted).then(|| (format!("row {place}"), self.told(found), self.told(wanted)))
    }

    /// A row that states a type of another form than the one wanted.
    fn form_of(&self, at: impl FnOnce() -> String, ty: u16, wanted: u8) -> Offence {
        if self.types.form(ty) == wanted {
            return None;
        }
        let known = self.types.plain(wanted).filter(|_| wanted <= form::BOOL);
        Some((at(), self.told(ty), known.map_or_else(|| family(wanted).to_string(), |ty| self.told(ty))))
    }

    fn own_form(&self, row: Row, wanted: u8) -> Offence {
        self.form_of(|| "the row itself".to_string(), row.ty, wanted)
    }

    fn child_form(&self, place: usize, wanted: u8) -> Offence {
        let child = self.child(place, 0);
        self.form_of(|| format!("row {child}, its child"), self.stated(child), wanted)
    }

    /// The row itself, if it does not state the type that its children give it.
    fn result(&self, row: Row, wanted: u16) -> Offence {
        (row.ty != wanted).then(|| ("the row itself".to_string(), self.told(row.ty), self.told(wanted)))
    }

    /// The row itself, if it does not state the list type over an element.
    fn result_list(&self, row: Row, element: u16) -> Offence {
        let wanted = self.types.list_of(element);
        let words = || wanted.map_or_else(|| lacking(&format!("List {}", self.words.ty(element))), |ty| self.told(ty));
        (wanted != Some(row.ty)).then(|| ("the row itself".to_string(), self.told(row.ty), words()))
    }

    fn variable(&self, place: usize) -> Offence {
        let row = self.rows[place];
        match self.binder(place, row.word) {
            None => {
                let nowhere = "a let or native function around it that binds the name".to_string();
                Some((format!("name n{}", row.word), "no binder".to_string(), nowhere))
            }
            Some((_, ty)) if ty == row.ty => None,
            Some((binder, ty)) => {
                Some((format!("name n{}, bound at row {binder}", row.word), self.told(row.ty), self.told(ty)))
            }
        }
    }

    /// The innermost binder of a name around a row, and the type that it gives the name.
    fn binder(&self, place: usize, name: u32) -> Option<(usize, u16)> {
        let mut below = place;
        while let Some((binder, which)) = self.stands[below].parent {
            let row = self.rows[binder];
            let bound = match row.kind {
                kind::LET if row.word == name && which == 1 => Some(self.stated(binder + 1)),
                kind::NATIVE => {
                    let parts =
                        self.types.row(row.ty).filter(|ty| ty.form == form::NATIVE).map_or(&[][..], TypeRow::parts);
                    parts.iter().find(|part| u32::from(part.name) == name).map(|part| part.ty)
                }
                _ => None,
            };
            if let Some(ty) = bound {
                return Some((binder, ty));
            }
            below = binder;
        }
        None
    }

    fn native(&self, place: usize) -> Offence {
        let row = self.rows[place];
        self.own_form(row, form::NATIVE).or_else(|| {
            let body = self.child(place, 0);
            let wanted = self.types.row(row.ty)?.result;
            let (_, found, wanted) = self.same(body, wanted)?;
            Some((format!("row {body}, its body"), found, wanted))
        })
    }

    fn apply(&self, place: usize) -> Offence {
        let row = self.rows[place];
        let children = children_of(self.rows, self.stands, place);
        let (function, arguments) = children.split_first()?;
        let ty = self.types.row(self.stated(*function))?;
        if !ty.is_function() {
            let found = self.told(self.stated(*function));
            return Some((format!("row {function}, its function"), found, "a function type".to_string()));
        }
        for (k, argument) in arguments.iter().enumerate() {
            let Some(part) = ty.parts().get(k) else { break };
            if let Some((_, found, wanted)) = self.same(*argument, part.ty) {
                return Some((format!("row {argument}, its argument {}", k + 1), found, wanted));
            }
        }
        if ty.n != row.n {
            let arguments = |n: u8| format!("{n} argument{}", if n == 1 { "" } else { "s" });
            let wanted = format!("{}, by {}", arguments(ty.n), self.told(self.stated(*function)));
            return Some(("the row itself, its n".to_string(), arguments(row.n), wanted));
        }
        self.result(row, ty.result)
    }

    fn branches(&self, place: usize) -> Offence {
        let row = self.rows[place];
        let child = |which| self.child(place, which);
        let branch = |which, words: &str| {
            let (_, found, wanted) = self.same(child(which), row.ty)?;
            Some((format!("row {}, its {words}", child(which)), found, wanted))
        };
        let condition = child(0);
        self.form_of(|| format!("row {condition}, its condition"), self.stated(condition), form::BOOL)
            .or_else(|| branch(1, "then"))
            .or_else(|| branch(2, "else"))
    }

    fn body(&self, place: usize) -> Offence {
        let body = self.child(place, 1);
        self.result(self.rows[place], self.stated(body))
    }

    fn fix(&self, place: usize) -> Offence {
        let row = self.rows[place];
        let child = self.child(place, 0);
        let at = format!("row {child}, its child");
        if self.rows[child].kind != kind::NATIVE {
            let found = format!("a row {}", self.words.row(&self.rows[child]));
            return Some((at, found, "a row native: fix takes a written function".to_string()));
        }
        if let Some(offence) = self.form_of(|| at.clone(), self.stated(child), form::NATIVE) {
            return Some(offence);
        }
        let given = self.types.row(self.stated(child))?;
        let Some((first, others)) = given.parts().split_first() else {
            return Some((at, self.told(self.stated(child)), "a function whose first argument is itself".to_string()));
        };
        let wanted = TypeRow::new(form::NATIVE, given.result, others);
        if self.types.row(first.ty) != Some(&wanted) {
            let words =
                self.types.find(&wanted).map_or_else(|| lacking(&self.words.written(&wanted)), |ty| self.told(ty));
            return Some((format!("{at}, the type of its first argument"), self.told(first.ty), words));
        }
        self.result(row, first.ty)
    }

    fn cons(&self, place: usize) -> Offence {
        let row = self.rows[place];
        self.own_form(row, form::LIST).or_else(|| {
            let (head, tail) = (self.child(place, 0), self.child(place, 1));
            let of_head = self.same(head, self.types.element(row.ty)?);
            let head = of_head.map(|(_, found, wanted)| (format!("row {head}, its head"), found, wanted));
            let of_tail =
                || self.same(tail, row.ty).map(|(_, found, wanted)| (format!("row {tail}, its tail"), found, wanted));
            head.or_else(of_tail)
        })
    }

    fn zip(&self, place: usize) -> Offence {
        let row = self.rows[place];
        let child = self.child(place, 0);
        let Some(inner) = self.types.row(self.stated(child)).filter(|ty| ty.is_function()) else {
            let found = self.told(self.stated(child));
            return Some((format!("row {child}, its function"), found, "a function type".to_string()));
        };
        if u32::from(row.n) >= 1 << inner.n {
            let wanted = format!("arguments 1 to {} only, by row {child}", inner.n);
            return Some(("the row itself, its mask".to_string(), self.words.row(&row), wanted));
        }
        let mut parts = Vec::new();
        for (k, part) in inner.parts().iter().enumerate() {
            let ty = if row.n >> k & 1 == 1 { self.types.list_of(part.ty) } else { Some(part.ty) };
            parts.extend(ty.map(|ty| Part { name: part.name, ty }));
        }
        let whole = parts.len() == inner.parts().len();
        let result = self.types.list_of(inner.result).filter(|_| whole);
        let wanted = result.map(|result| TypeRow::new(inner.form, result, &parts));
        if wanted.as_ref() == self.types.row(row.ty) {
            return None;
        }
        let known = wanted.map(|wanted| match self.types.find(&wanted) {
            Some(ty) => self.told(ty),
            None => lacking(&self.words.written(&wanted)),
        });
        let around = format!("lists around the masked arguments and the result of {}", self.told(self.stated(child)));
        Some(("the row itself".to_string(), self.told(row.ty), known.unwrap_or_else(|| lacking(&around))))
    }

    fn tuple(&self, place: usize) -> Offence {
        let row = self.rows[place];
        self.own_form(row, form::TUPLE).or_else(|| {
            let parts = self.types.elements(row.ty)?;
            for (k, child) in children_of(self.rows, self.stands, place).into_iter().enumerate() {
                let Some(part) = parts.get(k) else { break };
                if let Some((_, found, wanted)) = self.same(child, part.ty) {
                    return Some((format!("row {child}, its element {}", k + 1), found, wanted));
                }
            }
            let wanted = || format!("{} elements, by {}", parts.len(), self.told(row.ty));
            (parts.len() != usize::from(row.n))
                .then(|| ("the row itself, its n".into(), format!("{} elements", row.n), wanted()))
        })
    }

    fn project(&self, place: usize) -> Offence {
        let row = self.rows[place];
        let child = self.child(place, 0);
        self.child_form(place, form::TUPLE).or_else(|| match self.element_at(self.stated(child), row.n) {
            Ok(ty) => self.result(row, ty),
            Err(offence) => Some(offence),
        })
    }

    fn list_project(&self, place: usize) -> Offence {
        let row = self.rows[place];
        let child = self.child(place, 0);
        self.own_form(row, form::LIST).or_else(|| self.child_form(place, form::LIST)).or_else(|| {
            let element = self.types.element(self.stated(child))?;
            let at = || format!("row {child}, its child: the elements of its list");
            self.form_of(at, element, form::TUPLE).or_else(|| match self.element_at(element, row.n) {
                Ok(ty) => self.result_list(row, ty),
                Err(offence) => Some(offence),
            })
        })
    }

    /// The type at a place of a tuple type, counted from 1.
    fn element_at(&self, tuple: u16, n: u8) -> Result<u16, (String, String, String)> {
        let parts = self.types.elements(tuple).unwrap_or(&[]);
        let place = usize::from(n).wrapping_sub(1);
        let wanted = format!("a place 1 to {}, by {}", parts.len(), self.told(tuple));
        parts.get(place).map(|part| part.ty).ok_or(("the row itself, its place".into(), format!("place {n}"), wanted))
    }
}

/// Where a row fails, the type found there and the type wanted.
type Offence = Option<(String, String, String)>;

fn lacking(ty: &str) -> String {
    format!("{ty}, which is not in the type table")
}

/// What the types of a form are called.
fn family(wanted: u8) -> &'static str {
    match wanted {
        form::STR => "Str",
        form::FILE => "File",
        form::BOOL => "Bool",
        form::LIST => "a list type",
        form::TUPLE => "a tuple type",
        form::NATIVE => "a native function type",
        _ => "a foreign function type",
    }
}

/// Each kind's rule.
fn rule(of: u8) -> &'static str {
    match of {
        kind::STR => "str: the row has type Str",
        kind::FILE => "file: the row has type File",
        kind::TRUE | kind::FALSE => "true and false: the row has type Bool",
        kind::VARIABLE => "variable: the row has the type of the innermost binder of its name",
        kind::NATIVE => "native: the row has a native function type, and its body the result type",
        kind::FOREIGN => "foreign: the row has a foreign function type",
        kind::APPLY => "apply: a function of n arguments, the arguments of its types in order, the row of its result type",
        kind::IF => "if: a Bool condition, and both branches of the row's type",
        kind::FIX => {
            "fix: over a written native function whose first argument has the type of the function without it; the row has that type"
        }
        kind::NIL => "nil: the row has a list type",
        kind::CONS => "cons: the row has a list type, its head the element's type, its tail the row's",
        kind::ISNIL => "isnil: over a list; the row has type Bool",
        kind::ZIP => "zip: the row has its function's type with List around each masked argument and the result",
        kind::TUPLE => "tuple: the row has a tuple type, and each child the type of its element",
        kind::PROJECT => "project: over a tuple that has the place; the row has the type there",
        kind::LIST_PROJECT => "list-project: over a list of tuples that have the place; the row has the list type over the type there",
        kind::LET => "let: the row has its body's type",
        _ => "",
    }
}
