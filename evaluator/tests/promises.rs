//! The three demands as properties of random sessions, told by a second reading of the bytes: each row's type is built
//! from its children's and looked up in the table, and the place and size of each step are counted on the rows.

use evaluator::deep::on_deep_stack;
use evaluator::make::sessions::{Act, Session};
use evaluator::{load, reply, run, Answer, Outcome, Verdict};

const RECORD: usize = 26_132;
const WORK: usize = 16_400;

fn u16_le(bytes: &[u8], at: usize) -> usize {
    usize::from(bytes[at]) + 256 * usize::from(bytes[at + 1])
}

fn u32_le(bytes: &[u8], at: usize) -> usize {
    u16_le(bytes, at) + 65_536 * u16_le(bytes, at + 2)
}

/// A type row by its 36 bytes.
struct Kinds<'a> {
    bytes: &'a [u8],
    count: usize,
    /// Where Str, File and Bool stand.
    plain: [Option<usize>; 3],
}

impl<'a> Kinds<'a> {
    fn new(bytes: &'a [u8], count: usize) -> Kinds<'a> {
        let mut kinds = Kinds { bytes, count, plain: [None; 3] };
        for form in 1..=3 {
            let mut raw = [0; 36];
            raw[0] = form;
            kinds.plain[usize::from(form) - 1] = kinds.find(&raw);
        }
        kinds
    }
    fn raw(&self, ty: usize) -> &'a [u8] {
        &self.bytes[36 * ty..36 * ty + 36]
    }
    fn form(&self, ty: usize) -> u8 {
        self.raw(ty)[0]
    }
    fn n(&self, ty: usize) -> usize {
        usize::from(self.raw(ty)[1])
    }
    fn result(&self, ty: usize) -> usize {
        u16_le(self.raw(ty), 2)
    }
    fn name(&self, ty: usize, k: usize) -> usize {
        u16_le(self.raw(ty), 4 + 4 * k)
    }
    fn part(&self, ty: usize, k: usize) -> usize {
        u16_le(self.raw(ty), 6 + 4 * k)
    }

    /// The number of a type given by its bytes.
    fn find(&self, raw: &[u8; 36]) -> Option<usize> {
        (0..self.count).find(|&ty| self.raw(ty) == raw)
    }
    fn find_list(&self, element: usize) -> Option<usize> {
        let mut raw = [0; 36];
        raw[0] = 4;
        raw[2..4].copy_from_slice(&(element as u16).to_le_bytes());
        self.find(&raw)
    }
    fn plain(&self, form: u8) -> Option<usize> {
        self.plain[usize::from(form) - 1]
    }

    fn is_ground(&self, ty: usize, known: &[bool]) -> bool {
        match self.form(ty) {
            1..=3 => true,
            4 => known[self.result(ty)],
            5 => (0..self.n(ty)).all(|k| known[self.part(ty, k)]),
            _ => false,
        }
    }

    /// Which types are ground, or the first bad row.
    fn ground(&self) -> Result<Vec<bool>, usize> {
        let mut known: Vec<bool> = Vec::with_capacity(self.count);
        for ty in 0..self.count {
            let (form, n) = (self.form(ty), self.n(ty));
            let (fewest, most) = match form {
                1..=4 => (0, 0),
                5 => (1, 8),
                6 | 7 => (0, 8),
                _ => return Err(ty),
            };
            if n < fewest || n > most || (0..ty).any(|other| self.raw(other) == self.raw(ty)) {
                return Err(ty);
            }
            let uses_result = form == 4 || form > 5;
            if uses_result && self.result(ty) >= ty || !uses_result && self.result(ty) != 0 {
                return Err(ty);
            }
            for k in 0..8 {
                let (name, part) = (self.name(ty, k), self.part(ty, k));
                if k >= n && (name != 0 || part != 0) || k < n && part >= ty {
                    return Err(ty);
                }
                if k < n && (name == 0) != (form == 5) {
                    return Err(ty);
                }
                if k < n && form > 5 && (0..k).any(|other| self.name(ty, other) == name) {
                    return Err(ty);
                }
                if k < n && form == 7 && !known[part] {
                    return Err(ty);
                }
            }
            if form == 7 && !known[self.result(ty)] {
                return Err(ty);
            }
            known.push(self.is_ground(ty, &known));
        }
        Ok(known)
    }
}

/// Rows by their bytes.
#[derive(Clone, Copy)]
struct Rows<'a>(&'a [u8]);

impl Rows<'_> {
    fn count(&self) -> usize {
        self.0.len() / 8
    }
    fn kind(&self, at: usize) -> u8 {
        self.0[8 * at]
    }
    fn n(&self, at: usize) -> usize {
        usize::from(self.0[8 * at + 1])
    }
    fn ty(&self, at: usize) -> usize {
        u16_le(self.0, 8 * at + 2)
    }
    fn word(&self, at: usize) -> usize {
        u32_le(self.0, 8 * at + 4)
    }
    fn children(&self, at: usize) -> usize {
        match self.kind(at) {
            6 | 11 | 14 | 15 | 17 | 18 => 1,
            13 | 19 => 2,
            10 => 3,
            8 => 1 + self.n(at),
            16 => self.n(at),
            _ => 0,
        }
    }

    fn fields_fit(&self, at: usize, types: usize) -> bool {
        let (n, word) = (self.n(at), self.word(at));
        let named = (1..=65_535).contains(&word);
        self.ty(at) < types
            && match self.kind(at) {
                1 | 2 => n == 0,
                5 | 7 | 9 | 19 => n == 0 && named,
                3 | 4 | 6 | 10..=14 => n == 0 && word == 0,
                8 => n <= 8 && word == 0,
                15 => n >= 1 && word == 0,
                16..=18 => (1..=8).contains(&n) && word == 0,
                _ => false,
            }
    }

    /// Where each row's subtree ends, or the first row that is malformed, spare or missing.
    fn ends(&self, types: usize) -> Result<Vec<usize>, usize> {
        let count = self.count();
        let mut ends = vec![0; count];
        let mut open: Vec<(usize, usize)> = Vec::new();
        for at in 0..count {
            if !self.fields_fit(at, types) || at > 0 && open.is_empty() {
                return Err(at);
            }
            if let Some((_, left)) = open.last_mut() {
                *left -= 1;
            }
            open.push((at, self.children(at)));
            while let Some(&(done, 0)) = open.last() {
                ends[done] = at + 1;
                open.pop();
            }
        }
        if count > 0 && open.is_empty() {
            Ok(ends)
        } else {
            Err(count)
        }
    }
}

/// A whole term with its types.
struct Reading<'a> {
    types: Kinds<'a>,
    rows: Rows<'a>,
    ends: Vec<usize>,
}

/// What the rules find when they look at a place.
#[derive(Clone, Copy, Debug, PartialEq)]
enum Look {
    Value,
    Waits,
    Steps {
        place: usize,
        sends: bool,
    },
    /// No rule applies, and it is neither a value nor waiting: demand 3 says this never is.
    Stuck,
}

impl Reading<'_> {
    fn child(&self, at: usize, which: usize) -> usize {
        (0..which).fold(at + 1, |child, _| self.ends[child])
    }

    fn size(&self, at: usize) -> usize {
        self.ends[at] - at
    }

    /// The first row, in row order, whose rule does not give the type it states.
    fn first_failing(&self, at: usize, scope: &mut Vec<(usize, usize)>) -> Option<usize> {
        let rows = self.rows;
        let stated = rows.ty(at);
        if self.given(at, scope) != Some(stated) {
            return Some(at);
        }
        let outer = scope.len();
        for which in 0..rows.children(at) {
            match rows.kind(at) {
                6 => {
                    let names =
                        (0..self.types.n(stated)).map(|k| (self.types.name(stated, k), self.types.part(stated, k)));
                    scope.extend(names);
                }
                19 if which == 1 => scope.push((rows.word(at), rows.ty(at + 1))),
                _ => {}
            }
            let failing = self.first_failing(self.child(at, which), scope);
            scope.truncate(outer);
            if failing.is_some() {
                return failing;
            }
        }
        None
    }

    /// The type that the paper's rule gives a row over what its children state; none if the rule fails.
    fn given(&self, at: usize, scope: &[(usize, usize)]) -> Option<usize> {
        let (types, rows) = (&self.types, self.rows);
        let stated = rows.ty(at);
        let form = types.form(stated);
        let child = |which| rows.ty(self.child(at, which));
        let is = |holds: bool, ty: usize| holds.then_some(ty);
        match rows.kind(at) {
            1 => types.plain(1),
            2 => types.plain(2),
            3 | 4 => types.plain(3),
            5 => scope.iter().rev().find(|(name, _)| *name == rows.word(at)).map(|(_, ty)| *ty),
            6 => is(form == 6 && child(0) == types.result(stated), stated),
            7 => is(form == 7, stated),
            8 => {
                let function = child(0);
                let takes = types.form(function) >= 6
                    && types.n(function) == rows.n(at)
                    && (0..rows.n(at)).all(|k| child(1 + k) == types.part(function, k));
                is(takes, types.result(function))
            }
            9 => Some(stated),
            10 => is(Some(child(0)) == types.plain(3) && child(1) == child(2), child(1)),
            11 => self.fixed(child(0)).filter(|_| rows.kind(at + 1) == 6),
            12 => is(form == 4, stated),
            13 => is(types.form(child(1)) == 4 && types.result(child(1)) == child(0), child(1)),
            14 => types.plain(3).filter(|_| types.form(child(0)) == 4),
            15 => self.zipped(child(0), rows.n(at)),
            16 => {
                let mut raw = [0; 36];
                raw[0] = 5;
                raw[1] = rows.n(at) as u8;
                for k in 0..rows.n(at) {
                    raw[6 + 4 * k..8 + 4 * k].copy_from_slice(&(child(k) as u16).to_le_bytes());
                }
                types.find(&raw)
            }
            17 => self.element(child(0), rows.n(at)),
            18 => {
                let list = child(0);
                let element = self.element(is(types.form(list) == 4, types.result(list))?, rows.n(at))?;
                types.find_list(element)
            }
            19 => Some(child(1)),
            _ => None,
        }
    }

    /// The type at a place of a tuple type.
    fn element(&self, tuple: usize, place: usize) -> Option<usize> {
        let within = self.types.form(tuple) == 5 && place <= self.types.n(tuple);
        within.then(|| self.types.part(tuple, place - 1))
    }

    /// The type that fix gives a function: the function's, without its first argument, which must be of that type.
    fn fixed(&self, function: usize) -> Option<usize> {
        let whole = self.types.raw(function);
        if whole[0] != 6 || whole[1] == 0 {
            return None;
        }
        let mut raw = [0; 36];
        raw[0] = 6;
        raw[1] = whole[1] - 1;
        raw[2..4].copy_from_slice(&whole[2..4]);
        raw[4..32].copy_from_slice(&whole[8..36]);
        self.types.find(&raw).filter(|&ty| ty == self.types.part(function, 0))
    }

    /// The type that zip gives a function: lists around the result and each masked argument.
    fn zipped(&self, function: usize, mask: usize) -> Option<usize> {
        let types = &self.types;
        if types.form(function) < 6 || mask >> types.n(function) != 0 {
            return None;
        }
        let mut raw = [0; 36];
        raw.copy_from_slice(types.raw(function));
        let mut wrap = |at: usize, ty: usize| -> Option<()> {
            raw[at..at + 2].copy_from_slice(&(types.find_list(ty)? as u16).to_le_bytes());
            Some(())
        };
        wrap(2, types.result(function))?;
        for k in (0..8).filter(|k| mask >> k & 1 == 1) {
            wrap(6 + 4 * k, types.part(function, k))?;
        }
        types.find(&raw)
    }

    /// What the rules find at a place: a value, a first place that steps, or only futures where they look.
    fn look(&self, at: usize) -> Look {
        let rows = self.rows;
        let child = |which| self.child(at, which);
        let here = Look::Steps { place: at, sends: false };
        // A child that must become something else first: if it is a value already, nothing can ever happen.
        let needed = |which| match self.look(child(which)) {
            Look::Value => Look::Stuck,
            other => other,
        };
        match rows.kind(at) {
            1..=4 | 6 | 7 | 12 | 15 => Look::Value,
            9 => Look::Waits,
            11 | 19 => here,
            10 if matches!(rows.kind(at + 1), 3 | 4) => here,
            14 | 18 if matches!(rows.kind(at + 1), 12 | 13) => here,
            17 if rows.kind(at + 1) == 16 => here,
            10 | 14 | 17 | 18 => needed(0),
            13 => self.first_of((0..2).map(child)),
            16 => self.first_of((0..rows.n(at)).map(child)),
            8 => match rows.kind(at + 1) {
                6 => here,
                7 => match self.first_of((1..=rows.n(at)).map(child)) {
                    Look::Value => Look::Steps { place: at, sends: true },
                    other => other,
                },
                15 => {
                    let mask = rows.n(at + 1);
                    let masked = (0..rows.n(at)).filter(|k| mask >> k & 1 == 1).map(|k| child(1 + k));
                    let unready: Vec<usize> = masked.filter(|&place| !matches!(rows.kind(place), 12 | 13)).collect();
                    if unready.is_empty() {
                        return here;
                    }
                    match self.first_of(unready.into_iter()) {
                        Look::Value => Look::Stuck,
                        other => other,
                    }
                }
                _ => needed(0),
            },
            _ => Look::Stuck,
        }
    }

    /// The first place of several that steps; a value if all are; else they wait.
    fn first_of(&self, places: impl Iterator<Item = usize>) -> Look {
        let mut whole = Look::Value;
        for place in places {
            match self.look(place) {
                Look::Value => {}
                Look::Waits => whole = Look::Waits,
                other => return other,
            }
        }
        whole
    }

    /// How often a name stands free from a row to the end of its subtree.
    fn free(&self, at: usize, name: usize) -> usize {
        let rows = self.rows;
        match rows.kind(at) {
            5 => usize::from(rows.word(at) == name),
            6 => {
                let ty = rows.ty(at);
                let hidden = (0..self.types.n(ty)).any(|k| self.types.name(ty, k) == name);
                if hidden {
                    0
                } else {
                    self.free(at + 1, name)
                }
            }
            19 => {
                let body = if rows.word(at) == name { 0 } else { self.free(self.child(at, 1), name) };
                self.free(at + 1, name) + body
            }
            _ => (0..rows.children(at)).map(|which| self.free(self.child(at, which), name)).sum(),
        }
    }

    /// How many rows the term has after the step at a place, by counting alone.
    fn rows_after(&self, at: usize, sends: bool) -> usize {
        let rows = self.rows;
        let child = |which| self.child(at, which);
        let new = match rows.kind(at) {
            8 if sends => 1,
            8 if rows.kind(at + 1) == 6 => {
                let (body, ty) = (at + 2, rows.ty(at + 1));
                let grown: usize = (0..rows.n(at))
                    .map(|k| self.free(body, self.types.name(ty, k)) * (self.size(child(1 + k)) - 1))
                    .sum();
                self.size(body) + grown
            }
            8 => {
                let (mask, inner) = (rows.n(at + 1), self.size(at + 2));
                let masked = |k: usize| mask >> k & 1 == 1;
                let arguments: Vec<usize> = (0..rows.n(at)).map(|k| child(1 + k)).collect();
                if arguments.iter().enumerate().any(|(k, &place)| masked(k) && rows.kind(place) == 12) {
                    1
                } else {
                    let parts: usize = arguments
                        .iter()
                        .enumerate()
                        .map(|(k, &place)| if masked(k) { self.size(place) - 1 } else { 2 * self.size(place) })
                        .sum();
                    4 + 2 * inner + parts
                }
            }
            10 => self.size(if rows.kind(at + 1) == 3 { child(1) } else { child(2) }),
            11 => {
                let (body, ty) = (at + 2, rows.ty(at + 1));
                1 + self.size(body) + self.free(body, self.types.name(ty, 0)) * (self.size(at) - 1)
            }
            14 => 1,
            17 => self.size(self.child(at + 1, rows.n(at) - 1)),
            18 if rows.kind(at + 1) == 12 => 1,
            18 => 2 + self.size(at + 1),
            _ => {
                let body = child(1);
                self.size(body) + self.free(body, rows.word(at)) * (self.size(at + 1) - 1)
            }
        };
        rows.count() - self.size(at) + new
    }
}

/// A sound record, read a second way.
struct Sound<'a> {
    term: Reading<'a>,
    ground: Vec<bool>,
    open: Vec<(usize, usize)>,
    next: usize,
    program_type: usize,
}

fn zeros(bytes: &[u8]) -> bool {
    bytes.iter().fold(0, |seen, byte| seen | byte) == 0
}

fn read_sound(record: &[u8]) -> Option<Sound<'_>> {
    if record.len() != RECORD || record[..6] != *b"TCR\x01\x00\x00" || !zeros(&record[18..20]) {
        return None;
    }
    let (types, rows, open) = (u16_le(record, 6), u16_le(record, 8), u16_le(record, 10));
    let (next, program_type) = (u32_le(record, 12), u16_le(record, 16));
    let types_fit = (1..=256).contains(&types);
    if !types_fit || !(1..=2_048).contains(&rows) || open > 64 || !(1..=65_536).contains(&next) {
        return None;
    }
    let unused = [&record[20 + 36 * types..9_236], &record[9_236 + 8 * open..9_748], &record[9_748 + 8 * rows..]];
    if !unused.into_iter().all(zeros) {
        return None;
    }
    let types = Kinds::new(&record[20..], types);
    let ground = types.ground().ok()?;
    let rows = Rows(&record[9_748..9_748 + 8 * rows]);
    let ends = rows.ends(types.count).ok()?;
    let term = Reading { types, rows, ends };
    if term.first_failing(0, &mut Vec::new()).is_some() || rows.ty(0) != program_type {
        return None;
    }
    let mut listed: Vec<(usize, usize)> = Vec::new();
    for k in 0..open {
        let entry = &record[9_236 + 8 * k..9_244 + 8 * k];
        let (number, ty) = (u32_le(entry, 0), u16_le(entry, 4));
        let rises = number > listed.last().map_or(0, |&(before, _)| before);
        if !rises || number >= next || !*ground.get(ty)? || !zeros(&entry[6..]) {
            return None;
        }
        listed.push((number, ty));
    }
    let futures_listed =
        (0..rows.count()).filter(|&at| rows.kind(at) == 9).all(|at| listed.contains(&(rows.word(at), rows.ty(at))));
    futures_listed.then_some(Sound { term, ground, open: listed, next, program_type })
}

/// A refusal and its place; 0, 0 for none.
type Refusal = (u32, usize);

/// What a load of the file into a record of the right length should give.
fn expected_load(file: &[u8]) -> Refusal {
    if file.len() < 10 {
        return (2, 0);
    }
    let (types, rows) = (u16_le(file, 6), u16_le(file, 8));
    if file[..3] != *b"TCA" {
        return (3, 0);
    }
    if file[3..5] != [1, 0] {
        return (4, 0);
    }
    if file[5] != 0 || !(1..=256).contains(&types) || !(1..=1_024).contains(&rows) {
        return (5, 0);
    }
    if file.len() != 10 + 36 * types + 8 * rows {
        return (2, 0);
    }
    let rows = Rows(&file[10 + 36 * types..]);
    let types = Kinds::new(&file[10..], types);
    if let Err(place) = types.ground() {
        return (6, place);
    }
    let ends = match rows.ends(types.count) {
        Ok(ends) => ends,
        Err(place) => return (7, place),
    };
    if let Some(place) = (0..rows.count()).find(|&at| rows.kind(at) == 9) {
        return (8, place);
    }
    let failing = Reading { types, rows, ends }.first_failing(0, &mut Vec::new());
    failing.map_or((0, 0), |place| (9, place))
}

/// What a reply to a sound record should give.
fn expected_reply(sound: &Sound, bytes: &[u8]) -> Refusal {
    if bytes.len() < 8 {
        return (11, 0);
    }
    let (number, count) = (u32_le(bytes, 0), u16_le(bytes, 4));
    if !(1..=256).contains(&count) || !zeros(&bytes[6..8]) || bytes.len() != 8 + 8 * count {
        return (11, 0);
    }
    let Some(&(_, ty)) = sound.open.iter().find(|(open, _)| *open == number) else {
        return (12, 0);
    };
    let rows = Rows(&bytes[8..]);
    let types = &sound.term.types;
    let ends = match rows.ends(types.count) {
        Ok(ends) => ends,
        Err(place) => return (13, place),
    };
    if let Some(place) = (0..count).find(|&at| !matches!(rows.kind(at), 1..=4 | 12 | 13 | 16)) {
        return (14, place);
    }
    let value = Reading { types: Kinds { ..*types }, rows, ends };
    if rows.ty(0) != ty {
        return (15, 0);
    }
    if let Some(place) = value.first_failing(0, &mut Vec::new()) {
        return (15, place);
    }
    let stands = standing(&sound.term, number);
    if sound.term.rows.count() + stands * (count - 1) > 2_048 {
        return (16, 0);
    }
    (0, 0)
}

/// How often a call's future stands in the term.
fn standing(term: &Reading, number: usize) -> usize {
    (0..term.rows.count()).filter(|&at| term.rows.kind(at) == 9 && term.rows.word(at) == number).count()
}

/// A stall whose every call is watched.
struct Watched {
    record: Vec<u8>,
    work: Vec<u8>,
    /// The record as it stood when it last came from a load by runs and replies alone.
    from_load: Option<Vec<u8>>,
    calls: u64,
    steps: u64,
}

impl Watched {
    fn act(&mut self, act: &Act, chance: u64) {
        match act {
            Act::SetRecord(bytes) => self.record.clone_from(bytes),
            Act::SetWork(bytes) => self.work.clone_from(bytes),
            Act::Load(file) => self.load(file),
            Act::Run(budget) => self.run(*budget, chance),
            Act::Reply(bytes) => self.reply(bytes, chance),
        }
        self.calls += 1;
    }

    fn load(&mut self, file: &[u8]) {
        let before = self.record.clone();
        let verdict = load(file, &mut self.record);
        let expected = if before.len() == RECORD { expected_load(file) } else { (1, 0) };
        assert_eq!((verdict.refusal, verdict.place as usize), expected);
        if expected.0 != 0 {
            assert!(self.record == before, "a refusal changes no byte");
            return;
        }
        let sound = read_sound(&self.record).expect("an accepted load writes a sound record");
        let types = 36 * sound.term.types.count;
        assert!(sound.next == 1 && sound.open.is_empty());
        assert!(self.record[20..20 + types] == file[10..10 + types] && sound.term.rows.0 == &file[10 + types..]);
        self.from_load = Some(self.record.clone());
    }

    fn run(&mut self, budget: u32, chance: u64) {
        let (record, work) = (self.record.clone(), self.work.clone());
        let outcome = run(&mut self.record, &mut self.work, budget);
        let before = if work.len() == WORK { read_sound(&record) } else { None };
        let Some(before) = before else {
            let lengths = record.len() == RECORD && work.len() == WORK;
            let number = if lengths { 10 } else { 1 };
            assert_eq!(outcome, Outcome::Refused(Verdict { refusal: number, place: 0 }));
            assert!(self.record == record && self.work == work, "a refusal changes no byte");
            return;
        };
        let Outcome::Ran { answer, sent, steps } = outcome else {
            panic!("a run on a sound record is not refused: {outcome:?}");
        };
        self.steps += u64::from(steps);
        let after = read_sound(&self.record).expect("the record stays sound");
        // The term keeps the program's type; the types and the older calls stand.
        assert_eq!(after.program_type, before.program_type);
        assert!(self.record[20..9_236] == record[20..9_236]);
        let sends = usize::from(answer == Answer::Sent);
        assert_eq!(after.open.len(), before.open.len() + sends);
        assert!(after.open[..before.open.len()] == before.open[..]);
        assert_eq!(after.next, before.next + sends, "each number is sent once");
        if sends == 1 {
            assert_eq!(sent as usize, before.next);
            assert_eq!(after.open.last().map(|entry| entry.0), Some(before.next));
            self.check_call(&after);
        } else {
            assert!(sent == 0 && zeros(&self.work));
        }
        // The first answer is decided by where the rules look, before any step.
        let first = halted(&before);
        match first {
            Some(halt) => assert_eq!((answer, steps), (halt, 0)),
            None if budget == 0 => assert_eq!((answer, steps), (Answer::Budget, 0)),
            None => assert!(steps >= 1 && steps <= budget),
        }
        // The last one by where they look after the steps made.
        match answer {
            Answer::Sent => {}
            Answer::Budget => {
                assert_eq!(steps, budget);
                assert_eq!(halted(&after), None);
            }
            _ => assert_eq!(halted(&after), Some(answer)),
        }
        if steps == 1 {
            self.check_one_step(&before, &after);
        }
        if (2..=10).contains(&steps) && chance.is_multiple_of(6) {
            self.check_step_by_step(&record, answer, sent, steps);
        }
        self.follow_load(&record, &after);
        self.keep_load(&record);
    }

    /// One step: as many rows as counting gives, the rows before the changed one standing.
    fn check_one_step(&self, before: &Sound, after: &Sound) {
        let Look::Steps { place, sends } = before.term.look(0) else {
            panic!("a step was made where none is");
        };
        assert_eq!(after.term.rows.count(), before.term.rows_after(place, sends));
        assert!(after.term.rows.0[..8 * place] == before.term.rows.0[..8 * place]);
        if sends {
            assert_eq!((after.term.rows.kind(place), after.term.rows.word(place)), (9, before.next));
        }
    }

    /// A run of n steps equals n runs of one step.
    fn check_step_by_step(&self, record: &[u8], answer: Answer, sent: u32, steps: u32) {
        let mut slow = record.to_vec();
        let mut work = vec![1; WORK];
        for made in 1..=steps {
            let outcome = run(&mut slow, &mut work, 1);
            let Outcome::Ran { answer: step_answer, sent: step_sent, steps: one } = outcome else {
                panic!("refused on the way");
            };
            assert_eq!(one, 1, "step {made} of {steps}");
            if made == steps && answer != Answer::Budget {
                assert_eq!((step_answer, step_sent), (answer, sent));
            } else {
                assert_eq!((step_answer, step_sent), (Answer::Budget, 0));
            }
        }
        assert!(slow == self.record && work == self.work);
    }

    /// The work buffer holds the call and zeros.
    fn check_call(&self, after: &Sound) {
        let count = u16_le(&self.work, 8);
        let &(number, ty) = after.open.last().expect("the call is open");
        assert_eq!((u32_le(&self.work, 0), u16_le(&self.work, 10)), (number, ty));
        assert!((1..=65_535).contains(&u32_le(&self.work, 4)), "a tool's number");
        assert!(after.ground[ty] && zeros(&self.work[12 + 8 * count..]));
        // The arguments are values, one whole tree after the other.
        let rows = &self.work[12..12 + 8 * count];
        let mut awaited = 0;
        for at in 0..count {
            let row = Rows(rows);
            assert!(row.fields_fit(at, after.term.types.count) && matches!(row.kind(at), 1..=4 | 12 | 13 | 16));
            awaited = if awaited == 0 { row.children(at) } else { awaited - 1 + row.children(at) };
        }
        assert_eq!(awaited, 0);
    }

    fn reply(&mut self, bytes: &[u8], chance: u64) {
        let (record, work) = (self.record.clone(), self.work.clone());
        let verdict = reply(&mut self.record, &mut self.work, bytes);
        let lengths = record.len() == RECORD && work.len() == WORK;
        let before = if lengths { read_sound(&record) } else { None };
        let expected = match &before {
            Some(sound) => expected_reply(sound, bytes),
            None if lengths => (10, 0),
            None => (1, 0),
        };
        assert_eq!((verdict.refusal, verdict.place as usize), expected);
        if expected.0 != 0 {
            assert!(self.record == record && self.work == work, "a refusal changes no byte");
            return;
        }
        let before = before.expect("an accepted reply needs a sound record");
        assert!(zeros(&self.work));
        let after = read_sound(&self.record).expect("the record stays sound");
        let (number, count) = (u32_le(bytes, 0), u16_le(bytes, 4));
        let left: Vec<_> = before.open.iter().copied().filter(|entry| entry.0 != number).collect();
        assert_eq!(after.open, left);
        assert_eq!((after.next, after.program_type), (before.next, before.program_type));
        assert_eq!(standing(&after.term, number), 0);
        let grown = standing(&before.term, number) * (count - 1);
        assert_eq!(after.term.rows.count(), before.term.rows.count() + grown);
        if chance.is_multiple_of(4) {
            let mut again = self.record.clone();
            assert_eq!(reply(&mut again, &mut vec![0; WORK], bytes), Verdict { refusal: 12, place: 0 });
        }
        self.follow_load(&record, &after);
        self.keep_load(&record);
    }

    /// From a load, each open number stands in the term exactly once.
    fn follow_load(&self, before: &[u8], after: &Sound) {
        if self.from_load.as_deref() == Some(before) {
            for &(number, _) in &after.open {
                assert_eq!(standing(&after.term, number), 1, "how often call {number} stands");
            }
        }
    }

    fn keep_load(&mut self, before: &[u8]) {
        if self.from_load.as_deref() == Some(before) {
            self.from_load = Some(self.record.clone());
        }
    }
}

/// The answer that halts a run before any step but for the budget, if there is one.
fn halted(sound: &Sound) -> Option<Answer> {
    match sound.term.look(0) {
        Look::Value => Some(Answer::Value),
        Look::Waits => Some(Answer::Waiting),
        Look::Stuck => panic!("neither a value, nor a rule, nor an open call where the rules look"),
        Look::Steps { place, sends } => {
            if sends && sound.open.len() == 64 {
                Some(Answer::Held)
            } else if sends && sound.next == 65_536 {
                Some(Answer::Numbers)
            } else if sound.term.rows_after(place, sends) > 2_048 {
                Some(Answer::Room)
            } else {
                None
            }
        }
    }
}

/// A number from the environment, for longer searches than the usual one.
fn wanted(name: &str, usual: u64) -> u64 {
    std::env::var(name).ok().and_then(|word| word.parse().ok()).unwrap_or(usual)
}

#[test]
fn random_sessions_keep_the_three_demands() {
    let seed = wanted("PROMISES_SEED", 2_026);
    let sessions = wanted("PROMISES_SESSIONS", 100_000);
    on_deep_stack(|| {
        let mut watched = Watched { record: vec![], work: vec![], from_load: None, calls: 0, steps: 0 };
        for number in 0..sessions {
            watched.from_load = None;
            let mut session = Session::new(seed, number);
            while let Some(act) = session.next(&watched.record, &watched.work) {
                watched.act(&act, number);
            }
        }
        println!("{sessions} sessions, {} acts, {} steps", watched.calls, watched.steps);
        assert!(watched.steps > sessions);
    });
}
