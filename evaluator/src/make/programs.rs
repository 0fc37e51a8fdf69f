//! Well-typed programs over every kind, made from the wanted type downward.

use crate::layout::*;
use crate::random::Random;
use crate::record::Entry;
use crate::rows::{kind, Row};
use crate::table::{apply, counted, file_of, leaf, let_in, list, over, plain, tuple, Table};
use crate::types::{Part, TypeRow, BOOL, FILE, FOREIGN, LIST, NATIVE, STR, TUPLE};

/// A program that loads, or (with open calls) a term that can stand in a sound record.
#[derive(Clone, Debug)]
pub struct Program {
    pub types: Vec<TypeRow>,
    pub rows: Vec<Row>,
    /// The calls that futures of the term name; empty in a program.
    pub open: Vec<Entry>,
}

impl Program {
    pub fn file(&self) -> Vec<u8> {
        file_of(&self.types, &self.rows)
    }
}

/// What to make.
#[derive(Clone, Copy, Debug)]
pub struct Wish {
    /// About how many rows.
    pub rows: usize,
    /// Never more than this many.
    pub most: usize,
    /// Whether futures may stand in the term.
    pub futures: bool,
}

/// Makes a program by the wish.
pub fn program(random: &mut Random, wish: Wish) -> Program {
    let mut fuel = wish.rows;
    loop {
        let mut maker = Maker::new(random, wish.futures);
        let ty = if maker.random.one_in(3) { maker.any_type(3) } else { maker.ground_type(2) };
        let rows = match maker.random.below(40) {
            0..=2 => maker.ending_recursion(ty, fuel),
            3 => maker.growing_recursion(),
            4..=6 => maker.endless_recursion(ty, fuel),
            7..=9 => maker.wrapped(ty, fuel),
            10..=15 => maker.side_by_side(fuel),
            16..=22 => maker.calls(fuel),
            23 => maker.zips(fuel),
            24..=27 => maker.term(ty, fuel),
            _ => maker.working(ty, fuel),
        };
        let rows = maker.padded(rows, wish.rows.min(wish.most));
        if rows.len() <= wish.most {
            return Program { types: maker.table.rows, rows, open: maker.open };
        }
        fuel /= 2;
    }
}

/// Makes a value of a ground type with about the wanted number of rows.
pub fn value(random: &mut Random, types: &[TypeRow], ty: u16, want: usize, rows: &mut Vec<Row>) {
    let row = types[usize::from(ty)];
    match row.form {
        STR | FILE => rows.push(Row { kind: row.form, n: 0, ty, word: some_word(random) }),
        BOOL => rows.push(Row { kind: if random.one_in(2) { kind::TRUE } else { kind::FALSE }, n: 0, ty, word: 0 }),
        LIST => {
            let mut left = want;
            while left > 1 + least_value(types, row.result, want) {
                rows.push(Row { kind: kind::CONS, n: 0, ty, word: 0 });
                let before = rows.len();
                let share = if random.one_in(3) { left / 2 } else { 1 };
                value(random, types, row.result, share, rows);
                left = left.saturating_sub(1 + rows.len() - before);
            }
            rows.push(Row { kind: kind::NIL, n: 0, ty, word: 0 });
        }
        _ => {
            rows.push(Row { kind: kind::TUPLE, n: row.n, ty, word: 0 });
            let mut left = want.saturating_sub(1);
            for (k, part) in row.parts().iter().enumerate() {
                let others = row.parts().len() - k - 1;
                let before = rows.len();
                value(random, types, part.ty, left.saturating_sub(others).max(1), rows);
                left = left.saturating_sub(rows.len() - before);
            }
        }
    }
}

/// The fewest rows that a value of the type has, as far as the bound.
fn least_value(types: &[TypeRow], ty: u16, bound: usize) -> usize {
    let row = &types[usize::from(ty)];
    if row.form != TUPLE {
        return 1;
    }
    let mut rows = 1;
    for part in row.parts() {
        if rows > bound {
            break;
        }
        rows += least_value(types, part.ty, bound - rows);
    }
    rows
}

fn some_word(random: &mut Random) -> u32 {
    match random.below(4) {
        0 => random.word() as u32,
        _ => random.below(100) as u32,
    }
}

/// Makes terms over a type table that grows as they need it.
pub struct Maker<'a> {
    pub random: &'a mut Random,
    pub table: Table,
    ground: Vec<bool>,
    least: Vec<usize>,
    /// Names in scope with their types, innermost last.
    scope: Vec<(u16, u16)>,
    futures: bool,
    open: Vec<Entry>,
}

/// Types whose smallest term is larger than this are not made.
const LEAST_CAP: usize = 40;

impl<'a> Maker<'a> {
    pub fn new(random: &'a mut Random, futures: bool) -> Maker<'a> {
        let mut maker = Maker {
            random,
            table: Table::default(),
            ground: Vec::new(),
            least: Vec::new(),
            scope: Vec::new(),
            futures,
            open: Vec::new(),
        };
        let mut forms = [STR, FILE, BOOL];
        let turn = maker.random.below(3);
        forms.rotate_left(turn);
        for form in forms {
            maker.known(TypeRow::plain(form));
        }
        maker
    }

    /// The number of a type, if the table has it or has room.
    fn known(&mut self, row: TypeRow) -> Option<u16> {
        let least = match row.form {
            TUPLE => 1 + row.parts().iter().map(|part| self.least[usize::from(part.ty)]).sum::<usize>(),
            NATIVE => 1 + self.least[usize::from(row.result)],
            _ => 1,
        };
        if least > LEAST_CAP {
            return None;
        }
        let number = self.table.number_if_room(row)?;
        if usize::from(number) == self.ground.len() {
            let ground = match row.form {
                LIST => self.ground[usize::from(row.result)],
                TUPLE => row.parts().iter().all(|part| self.ground[usize::from(part.ty)]),
                form => form <= BOOL,
            };
            self.ground.push(ground);
            self.least.push(least);
        }
        Some(number)
    }

    fn row(&self, ty: u16) -> TypeRow {
        self.table.rows[usize::from(ty)]
    }

    fn plain_type(&mut self, form: u8) -> u16 {
        self.table.number(TypeRow::plain(form))
    }

    fn old_type(&mut self) -> u16 {
        self.random.below(self.table.rows.len()) as u16
    }

    /// Any type, old or new.
    pub fn any_type(&mut self, depth: usize) -> u16 {
        let old = self.old_type();
        if depth == 0 || self.random.one_in(3) {
            return old;
        }
        let made = match self.random.below(10) {
            0 | 1 => {
                let form = self.random.between(1, 3) as u8;
                Some(self.plain_type(form))
            }
            2..=4 => {
                let element = self.any_type(depth - 1);
                self.known(TypeRow::list(element))
            }
            5 | 6 => {
                let parts = self.parts(depth - 1, 1, false, false);
                self.known(TypeRow::of_parts(TUPLE, &parts, 0))
            }
            7 | 8 => {
                let parts = self.parts(depth - 1, 0, true, false);
                let result = self.any_type(depth - 1);
                self.known(TypeRow::of_parts(NATIVE, &parts, result))
            }
            _ => {
                let parts = self.parts(depth - 1, 0, true, true);
                let result = self.ground_type(depth - 1);
                self.known(TypeRow::of_parts(FOREIGN, &parts, result))
            }
        };
        made.unwrap_or(old)
    }

    /// A ground type, old or new.
    fn ground_type(&mut self, depth: usize) -> u16 {
        let form = self.random.between(1, 3) as u8;
        let simple = self.plain_type(form);
        if depth == 0 || self.random.one_in(2) {
            return simple;
        }
        let made = if self.random.one_in(2) {
            let element = self.ground_type(depth - 1);
            self.known(TypeRow::list(element))
        } else {
            let parts = self.parts(depth - 1, 1, false, true);
            self.known(TypeRow::of_parts(TUPLE, &parts, 0))
        };
        made.unwrap_or(simple)
    }

    /// The parts of a tuple or function type: mostly few, up to eight.
    fn parts(&mut self, depth: usize, fewest: usize, named: bool, ground: bool) -> Vec<Part> {
        let count = if self.random.one_in(6) { self.random.between(fewest, 8) } else { self.random.between(fewest, 3) };
        let mut parts: Vec<Part> = Vec::new();
        for _ in 0..count {
            let ty = if ground { self.ground_type(depth) } else { self.any_type(depth) };
            let name = if named { self.fresh_name(&parts) } else { 0 };
            parts.push(Part { name, ty });
        }
        parts
    }

    /// A name from a small pool, so that names hide each other often.
    fn name(&mut self) -> u16 {
        match self.random.below(12) {
            0 => 65_535,
            1 | 2 => self.random.between(1, 12) as u16,
            _ => self.random.between(1, 4) as u16,
        }
    }

    fn fresh_name(&mut self, taken: &[Part]) -> u16 {
        let wanted = self.name();
        let free = |name: u16| taken.iter().all(|part| part.name != name);
        if free(wanted) {
            return wanted;
        }
        (1..).find(|&name| free(name)).expect("eight parts leave a name free")
    }

    /// The names that stand for a type here: the innermost binder of each decides.
    fn visible(&self, wanted: impl Fn(u16) -> bool) -> Vec<(u16, u16)> {
        let mut seen = Vec::new();
        let mut found = Vec::new();
        for &(name, ty) in self.scope.iter().rev() {
            if !seen.contains(&name) {
                seen.push(name);
                if wanted(ty) {
                    found.push((name, ty));
                }
            }
        }
        found
    }

    /// Rows made where more names are in scope.
    fn within(&mut self, names: &[Part], make: impl FnOnce(&mut Self) -> Vec<Row>) -> Vec<Row> {
        let outer = self.scope.len();
        self.scope.extend(names.iter().map(|part| (part.name, part.ty)));
        let rows = make(self);
        self.scope.truncate(outer);
        rows
    }

    /// A term of the type, of about as many rows as the fuel.
    pub fn term(&mut self, ty: u16, fuel: usize) -> Vec<Row> {
        if fuel <= 1 || self.random.one_in(12) {
            return self.small(ty);
        }
        for _ in 0..4 {
            if let Some(rows) = self.some_kind(ty, fuel - 1) {
                return rows;
            }
        }
        self.built(ty, fuel)
    }

    /// A term that is no value at once, if chance allows.
    fn working(&mut self, ty: u16, fuel: usize) -> Vec<Row> {
        for _ in 0..20 {
            let made = self.some_kind(ty, fuel);
            if let Some(rows) =
                made.filter(|rows| !matches!(rows[0].kind, 1..=7 | kind::NIL | kind::CONS | kind::ZIP | kind::TUPLE))
            {
                return rows;
            }
        }
        self.term(ty, fuel)
    }

    /// Many foreign calls side by side, some of them the same, with arguments that may step, wait or be values.
    fn calls(&mut self, fuel: usize) -> Vec<Row> {
        let result = self.ground_type(1);
        let Some(results) = self.known(TypeRow::list(result)) else {
            return self.term(result, fuel);
        };
        let count = self.random.between(1, 6);
        let mut elements: Vec<Vec<Row>> = Vec::new();
        for _ in 0..count {
            let again = !elements.is_empty() && self.random.one_in(4);
            let element = match again {
                true => self.random.pick(&elements).clone(),
                false => {
                    let parts = self.parts(1, 0, true, true);
                    match self.known(TypeRow::of_parts(FOREIGN, &parts, result)) {
                        Some(function) => {
                            let tool = leaf(kind::FOREIGN, function, self.tool());
                            self.applied_to(tool, function, result, fuel / count)
                        }
                        None => self.term(result, fuel / count),
                    }
                }
            };
            elements.push(element);
        }
        list(results, &elements)
    }

    /// A name or a future if there is one, else the smallest term of the type.
    fn small(&mut self, ty: u16) -> Vec<Row> {
        let names = self.visible(|other| other == ty);
        if !names.is_empty() && !self.random.one_in(4) {
            let (name, _) = *self.random.pick(&names);
            return leaf(kind::VARIABLE, ty, u32::from(name));
        }
        if self.futures && self.ground[usize::from(ty)] && self.random.one_in(2) {
            return self.future(ty);
        }
        self.built(ty, 0)
    }

    /// A future of an open call, new or already standing elsewhere.
    fn future(&mut self, ty: u16) -> Vec<Row> {
        let same: Vec<Entry> = self.open.iter().copied().filter(|entry| entry.ty == ty).collect();
        let full = self.open.len() >= MAX_OPEN;
        if !same.is_empty() && (full || self.random.one_in(3)) {
            return leaf(kind::FUTURE, ty, self.random.pick(&same).number);
        }
        if full {
            return self.built(ty, 0);
        }
        let last = self.open.last().map_or(0, |entry| entry.number);
        let gap = if self.random.one_in(3) { self.random.between(1, 5) } else { 1 };
        let number = last + gap as u32;
        self.open.push(Entry { number, ty });
        leaf(kind::FUTURE, ty, number)
    }

    /// A term whose row is the type's own constructor.
    fn built(&mut self, ty: u16, fuel: usize) -> Vec<Row> {
        let row = self.row(ty);
        let fuel = fuel.saturating_sub(1);
        match row.form {
            STR | FILE => leaf(row.form, ty, some_word(self.random)),
            BOOL => leaf(if self.random.one_in(2) { kind::TRUE } else { kind::FALSE }, ty, 0),
            LIST => {
                let mut rows = Vec::new();
                let mut left = fuel;
                while left > 1 && !self.random.one_in(5) {
                    rows.push(Row { kind: kind::CONS, n: 0, ty, word: 0 });
                    let share = self.random.between(1, left.min(1 + left / 2));
                    let element = self.term(row.result, share);
                    left = left.saturating_sub(1 + element.len());
                    rows.extend(element);
                }
                if rows.is_empty() || self.random.one_in(2) {
                    rows.push(Row { kind: kind::NIL, n: 0, ty, word: 0 });
                } else {
                    rows.extend(self.small(ty));
                }
                rows
            }
            TUPLE => {
                let shares = self.shares(fuel, row.parts().len());
                let elements: Vec<_> =
                    row.parts().iter().zip(shares).map(|(part, share)| self.term(part.ty, share)).collect();
                tuple(ty, &elements)
            }
            NATIVE => {
                let body = self.within(row.parts(), |maker| maker.term(row.result, fuel));
                plain(kind::NATIVE, ty, &[body])
            }
            _ => leaf(kind::FOREIGN, ty, self.tool()),
        }
    }

    fn tool(&mut self) -> u32 {
        if self.random.one_in(8) {
            MAX_WORD
        } else {
            self.random.between(1, 9) as u32
        }
    }

    /// Splits fuel among children.
    fn shares(&mut self, fuel: usize, count: usize) -> Vec<usize> {
        let mut shares = vec![fuel / count.max(1); count];
        for k in 1..count {
            let moved = self.random.below(shares[k] + 1);
            let to = self.random.below(count);
            shares[k] -= moved;
            shares[to] += moved;
        }
        shares
    }

    /// A term of a kind chosen by chance, if that kind can give the type.
    fn some_kind(&mut self, ty: u16, fuel: usize) -> Option<Vec<Row>> {
        match self.random.below(30) {
            0..=3 => Some(self.built(ty, fuel + 1)),
            4 | 5 => {
                let bool = self.plain_type(BOOL);
                let shares = self.shares(fuel, 3);
                let condition = self.term(bool, shares[0]);
                let branches = [self.term(ty, shares[1]), self.term(ty, shares[2])];
                let [then, other] = branches;
                Some(plain(kind::IF, ty, &[condition, then, other]))
            }
            6..=8 => {
                let bound_type = self.any_type(2);
                let shares = self.shares(fuel, 2);
                let name = self.name();
                let bound = self.term(bound_type, shares[0]);
                let body = self.within(&[Part { name, ty: bound_type }], |maker| maker.term(ty, shares[1]));
                Some(let_in(ty, name, bound, body))
            }
            9 | 10 => {
                let parts = self.parts(1, 0, true, false);
                let function = self.known(TypeRow::of_parts(NATIVE, &parts, ty))?;
                Some(self.applied(function, ty, fuel))
            }
            11..=13 => {
                if !self.ground[usize::from(ty)] {
                    return None;
                }
                let parts = self.parts(1, 0, true, true);
                let function = self.known(TypeRow::of_parts(FOREIGN, &parts, ty))?;
                Some(self.applied(function, ty, fuel))
            }
            14 => {
                let rows = self.table.rows.clone();
                let functions = self.visible(|other| {
                    let row = &rows[usize::from(other)];
                    row.is_function() && row.result == ty
                });
                if functions.is_empty() {
                    return None;
                }
                let (name, function) = *self.random.pick(&functions);
                Some(self.applied_to(leaf(kind::VARIABLE, function, u32::from(name)), function, ty, fuel))
            }
            15 => {
                let parts = self.parts(1, 0, true, false);
                let function = self.known(TypeRow::of_parts(NATIVE, &parts, ty))?;
                let fix = self.fix(function, fuel / 2)?;
                Some(self.applied_to(fix, function, ty, fuel / 2))
            }
            16 | 17 => {
                let mut parts = self.parts(1, 1, false, false);
                let place = self.random.below(parts.len());
                parts[place].ty = ty;
                let tuple_type = self.known(TypeRow::of_parts(TUPLE, &parts, 0))?;
                Some(counted(kind::PROJECT, place as u8 + 1, ty, self.term(tuple_type, fuel)))
            }
            18 | 19 | 26 | 27 if self.row(ty).form == LIST => {
                let mut parts = self.parts(1, 1, false, false);
                let place = self.random.below(parts.len());
                parts[place].ty = self.row(ty).result;
                let tuple_type = self.known(TypeRow::of_parts(TUPLE, &parts, 0))?;
                let tuples = self.known(TypeRow::list(tuple_type))?;
                let filled = self.random.one_in(2);
                let child = if filled { self.filled_list(tuples, fuel) } else { self.term(tuples, fuel) };
                Some(counted(kind::LIST_PROJECT, place as u8 + 1, ty, child))
            }
            20..=22 | 28 | 29 if self.row(ty).form == LIST => self.zip_applied(ty, fuel),
            18..=22 if self.row(ty).form == BOOL => {
                let element = self.any_type(1);
                let list_type = self.known(TypeRow::list(element))?;
                Some(plain(kind::ISNIL, ty, &[self.term(list_type, fuel)]))
            }
            23 if self.row(ty).form == NATIVE => self.fix(ty, fuel),
            24 | 25 if self.row(ty).is_function() => self.zip(ty, fuel),
            _ => None,
        }
    }

    /// An application of a function term of the type.
    fn applied(&mut self, function: u16, ty: u16, fuel: usize) -> Vec<Row> {
        let rows = if self.random.one_in(4) { self.term(function, fuel / 2) } else { self.built(function, fuel / 2) };
        self.applied_to(rows, function, ty, fuel / 2)
    }

    fn applied_to(&mut self, function: Vec<Row>, function_type: u16, ty: u16, fuel: usize) -> Vec<Row> {
        let row = self.row(function_type);
        let shares = self.shares(fuel, row.parts().len());
        let arguments: Vec<_> = row.parts().iter().zip(shares).map(|(part, share)| self.term(part.ty, share)).collect();
        apply(ty, function, &arguments)
    }

    /// A fix term of a native function type.
    fn fix(&mut self, ty: u16, fuel: usize) -> Option<Vec<Row>> {
        let row = self.row(ty);
        if row.n == 8 {
            return None;
        }
        let own_name = self.fresh_name(row.parts());
        let mut parts = vec![Part { name: own_name, ty }];
        parts.extend_from_slice(row.parts());
        let star = self.known(TypeRow::of_parts(NATIVE, &parts, row.result))?;
        let function = self.built(star, fuel);
        Some(plain(kind::FIX, ty, &[function]))
    }

    /// A zip of a function type whose result and some arguments are lists.
    fn zip(&mut self, ty: u16, fuel: usize) -> Option<Vec<Row>> {
        let outer = self.row(ty);
        let element_of = |ty: u16, table: &Table| {
            let row = table.rows[usize::from(ty)];
            (row.form == LIST).then_some(row.result)
        };
        let result = element_of(outer.result, &self.table)?;
        let mut parts = outer.parts().to_vec();
        let mut mask = 0;
        for (k, part) in parts.iter_mut().enumerate() {
            if let Some(element) = element_of(part.ty, &self.table) {
                if self.random.below(4) > 0 {
                    mask |= 1 << k;
                    part.ty = element;
                }
            }
        }
        if mask == 0 {
            return None;
        }
        let inner = self.known(TypeRow::of_parts(outer.form, &parts, result))?;
        let function = self.term(inner, fuel);
        Some(counted(kind::ZIP, mask, ty, function))
    }

    /// An application of a zip that gives the list type.
    fn zip_applied(&mut self, ty: u16, fuel: usize) -> Option<Vec<Row>> {
        let element = self.row(ty).result;
        let foreign = self.ground[usize::from(element)] && self.random.one_in(2);
        let inner_parts = self.parts(1, 1, true, foreign);
        let mut outer_parts = inner_parts.clone();
        let mut mask = 0;
        let certain = self.random.below(inner_parts.len());
        for (k, part) in outer_parts.iter_mut().enumerate() {
            if k == certain || self.random.one_in(2) {
                mask |= 1 << k;
                part.ty = self.known(TypeRow::list(part.ty))?;
            }
        }
        let form = if foreign { FOREIGN } else { NATIVE };
        let inner = self.known(TypeRow::of_parts(form, &inner_parts, element))?;
        let outer = self.known(TypeRow::of_parts(form, &outer_parts, ty))?;
        let function = self.built(inner, fuel / 3);
        let zip = counted(kind::ZIP, mask, outer, function);
        let shares = self.shares(fuel * 2 / 3, outer_parts.len());
        let mut arguments = Vec::new();
        for (k, (part, share)) in outer_parts.iter().zip(shares).enumerate() {
            let filled = mask >> k & 1 == 1 && self.random.below(3) > 0;
            arguments.push(if filled { self.filled_list(part.ty, share) } else { self.term(part.ty, share) });
        }
        Some(apply(ty, zip, &arguments))
    }

    /// A zip at the top, over lists that are filled, unready or waiting.
    fn zips(&mut self, fuel: usize) -> Vec<Row> {
        let element = self.ground_type(1);
        let made = self.known(TypeRow::list(element)).and_then(|ty| self.zip_applied(ty, fuel));
        made.unwrap_or_else(|| self.term(element, fuel))
    }

    /// A list with some elements, its tail nil or left to chance.
    fn filled_list(&mut self, ty: u16, fuel: usize) -> Vec<Row> {
        let element = self.row(ty).result;
        let count = self.random.between(1, 3);
        let mut rows = Vec::new();
        for _ in 0..count {
            rows.push(Row { kind: kind::CONS, n: 0, ty, word: 0 });
            rows.extend(self.term(element, fuel / count));
        }
        rows.extend(if self.random.one_in(3) { self.small(ty) } else { leaf(kind::NIL, ty, 0) });
        rows
    }

    /// A function that hands on its Bools, shifted, until the first is false: it ends.
    fn ending_recursion(&mut self, ty: u16, fuel: usize) -> Vec<Row> {
        let bool = self.plain_type(BOOL);
        let count = self.random.between(1, 4);
        let parts: Vec<Part> = (0..count).map(|k| Part { name: 10 + k as u16, ty: bool }).collect();
        let Some(function) = self.known(TypeRow::of_parts(NATIVE, &parts, ty)) else {
            return self.term(ty, fuel);
        };
        let mut star_parts = vec![Part { name: 9, ty: function }];
        star_parts.extend_from_slice(&parts);
        let Some(star) = self.known(TypeRow::of_parts(NATIVE, &star_parts, ty)) else {
            return self.term(ty, fuel);
        };
        let name = |k: usize| leaf(kind::VARIABLE, bool, 10 + k as u32);
        let mut handed: Vec<_> = (1..count).map(name).collect();
        handed.push(leaf(kind::FALSE, bool, 0));
        let again = apply(ty, leaf(kind::VARIABLE, function, 9), &handed);
        let base = self.within(&parts, |maker| maker.term(ty, fuel));
        let body = plain(kind::IF, ty, &[name(0), again, base]);
        let fix = plain(kind::FIX, function, &[plain(kind::NATIVE, star, &[body])]);
        let first: Vec<_> = (0..count).map(|_| self.term(bool, 2)).collect();
        apply(ty, fix, &first)
    }

    /// A function that calls itself for ever.
    fn endless_recursion(&mut self, ty: u16, fuel: usize) -> Vec<Row> {
        let parts = self.parts(1, 0, true, false);
        let parts = &parts[..parts.len().min(7)];
        let own_name = self.fresh_name(parts);
        let Some(function) = self.known(TypeRow::of_parts(NATIVE, parts, ty)) else {
            return self.term(ty, fuel);
        };
        let mut star_parts = vec![Part { name: own_name, ty: function }];
        star_parts.extend_from_slice(parts);
        let Some(star) = self.known(TypeRow::of_parts(NATIVE, &star_parts, ty)) else {
            return self.term(ty, fuel);
        };
        let call = leaf(kind::VARIABLE, function, u32::from(own_name));
        let body = self.within(&star_parts, |maker| maker.applied_to(call, function, ty, fuel / 2));
        let fix = plain(kind::FIX, function, &[plain(kind::NATIVE, star, &[body])]);
        self.applied_to(fix, function, ty, fuel / 2)
    }

    /// A function that calls itself with a longer list each time, until there is no room.
    fn growing_recursion(&mut self) -> Vec<Row> {
        let bool = self.plain_type(BOOL);
        let bools = self.table_list(bool);
        let grown = self.random.between(8, 80);
        let function = self.table_native(&[(2, bools)], bools);
        let star = self.table_native(&[(1, function), (2, bools)], bools);
        let mut argument: Vec<Row> = Vec::new();
        for _ in 0..grown {
            argument.push(Row { kind: kind::CONS, n: 0, ty: bools, word: 0 });
            argument.push(Row { kind: kind::TRUE, n: 0, ty: bool, word: 0 });
        }
        argument.extend(leaf(kind::VARIABLE, bools, 2));
        let body = apply(bools, leaf(kind::VARIABLE, function, 1), &[argument]);
        let fix = plain(kind::FIX, function, &[plain(kind::NATIVE, star, &[body])]);
        apply(bools, fix, &[leaf(kind::NIL, bools, 0)])
    }

    fn table_list(&mut self, element: u16) -> u16 {
        self.known(TypeRow::list(element)).expect("a fresh table has room")
    }

    fn table_native(&mut self, arguments: &[(u16, u16)], result: u16) -> u16 {
        let parts: Vec<Part> = arguments.iter().map(|&(name, ty)| Part { name, ty }).collect();
        self.known(TypeRow::of_parts(NATIVE, &parts, result)).expect("a fresh table has room")
    }

    /// A term below many rows that keep its type: the deep ones.
    fn wrapped(&mut self, ty: u16, fuel: usize) -> Vec<Row> {
        let mut rows = self.term(ty, fuel / 4);
        let one = self.known(TypeRow::of_parts(TUPLE, &[Part { name: 0, ty }], 0));
        let thunk = self.known(TypeRow::of_parts(NATIVE, &[], ty));
        let bool = self.plain_type(BOOL);
        while rows.len() + 4 < fuel {
            let name = self.name();
            rows = match (self.random.below(5), one, thunk) {
                (0, _, _) => let_in(ty, name, rows, leaf(kind::VARIABLE, ty, u32::from(name))),
                (1, Some(one), _) => counted(kind::PROJECT, 1, ty, tuple(one, &[rows])),
                (2, _, Some(thunk)) => apply(ty, plain(kind::NATIVE, thunk, &[rows]), &[]),
                (3, _, _) => let_in(ty, name, leaf(kind::TRUE, bool, 0), rows),
                _ => {
                    let other = self.built(ty, 0);
                    plain(kind::IF, ty, &[leaf(kind::TRUE, bool, 0), rows, other])
                }
            };
        }
        rows
    }

    /// A tuple or list of several terms: many places that may step, send or wait.
    fn side_by_side(&mut self, fuel: usize) -> Vec<Row> {
        if self.random.one_in(2) {
            let parts = self.parts(2, 1, false, false);
            if let Some(ty) = self.known(TypeRow::of_parts(TUPLE, &parts, 0)) {
                return self.built(ty, fuel);
            }
        }
        let element = self.ground_type(1);
        let Some(ty) = self.known(TypeRow::list(element)) else {
            return self.term(element, fuel);
        };
        let count = self.random.between(1, 8);
        let elements: Vec<_> = (0..count).map(|_| self.term(element, fuel / count)).collect();
        list(ty, &elements)
    }

    /// The rows made up to a count by a list beside them or by a let around them, where that can be done.
    fn padded(&mut self, rows: Vec<Row>, count: usize) -> Vec<Row> {
        let missing = count.saturating_sub(rows.len());
        if missing < 2 || (count <= 64 && self.random.below(4) > 0) {
            return rows;
        }
        let ty = rows[0].ty;
        let bool = self.plain_type(BOOL);
        let Some(bools) = self.known(TypeRow::list(bool)) else {
            return rows;
        };
        let padding = padding(bool, bools, missing - 1);
        if self.random.one_in(2) {
            let name = self.name();
            return let_in(ty, name, padding, rows);
        }
        let parts = [Part { name: 0, ty }, Part { name: 0, ty: padding[0].ty }];
        match self.known(TypeRow::of_parts(TUPLE, &parts, 0)) {
            Some(pair) => tuple(pair, &[rows, padding]),
            None => rows,
        }
    }
}

/// A closed term of exactly so many rows (at least one): a list of truths, or isnil of one.
pub fn padding(bool: u16, bools: u16, count: usize) -> Vec<Row> {
    if count.is_multiple_of(2) {
        return plain(kind::ISNIL, bool, &[padding(bool, bools, count - 1)]);
    }
    list(bools, &vec![leaf(kind::TRUE, bool, 0); count / 2])
}

/// A table whose types double at each row, below one foreign function: going down through every part of the topmost
/// one by one would take two to the power of the height.
pub fn tower(height: usize) -> Program {
    let mut table = Table::default();
    let mut top = table.str();
    for _ in 0..height {
        top = table.tuple(&[top, top]);
    }
    let function = table.foreign(&[], top);
    Program {
        types: table.rows,
        rows: over(Row { kind: kind::FOREIGN, n: 0, ty: function, word: 1 }, &[]),
        open: vec![],
    }
}
