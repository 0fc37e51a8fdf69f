//! Three kept records to change byte by byte, early, in mid-run and near the limits, each with a reply to lend.

use crate::layout::*;
use crate::make::records::written;
use crate::record::Entry;
use crate::rows::{kind, Row};
use crate::table::{apply, counted, leaf, let_in, list, plain, reply_of, tuple, Table};
use crate::Verdict;

/// A sound record and a reply to one of its calls.
pub struct Kept {
    pub name: &'static str,
    pub record: Vec<u8>,
    pub reply: Vec<u8>,
}

pub fn three_records() -> [Kept; 3] {
    [early(), middle(), late()]
}

/// The bench sheet's let p, just loaded: no call is open, so every reply comes too soon.
fn early() -> Kept {
    let record = loaded(&crate::compare::small_let());
    Kept { name: "early", record, reply: reply_of(1, &leaf(kind::STR, 0, 41)) }
}

/// Terms of every kind over a table of types.
struct Routine {
    table: Table,
    str: u16,
    bool: u16,
    bools: u16,
    strs: u16,
}

impl Routine {
    fn new() -> Routine {
        let mut table = Table::default();
        let (str, bool) = (table.str(), table.bool());
        table.file();
        let (bools, strs) = (table.list(bool), table.list(str));
        Routine { table, str, bool, bools, strs }
    }

    fn string(&self, number: u32) -> Vec<Row> {
        leaf(kind::STR, self.str, number)
    }

    /// A call with one argument: a string in, a string out.
    fn locate(&mut self, argument: Vec<Row>) -> Vec<Row> {
        let function = self.table.foreign(&[(1, self.str)], self.str);
        apply(self.str, leaf(kind::FOREIGN, function, 900), &[argument])
    }

    /// let p = locate(str 3) in {p, p}
    fn pair(&mut self) -> (u16, Vec<Row>) {
        let pair = self.table.tuple(&[self.str, self.str]);
        let bound = self.locate(self.string(3));
        let p = leaf(kind::VARIABLE, self.str, 7);
        (pair, let_in(pair, 7, bound, tuple(pair, &[p.clone(), p])))
    }

    /// The bench sheet's zip, its last element still to be called for.
    fn zip(&mut self) -> (u16, Vec<Row>) {
        let (bool, bools) = (self.bool, self.bools);
        let inner = self.table.native(&[(1, bool), (2, bool)], bool);
        let outer = self.table.native(&[(1, bools), (2, bools)], bools);
        let look = self.table.foreign(&[], bool);
        let name = |name| leaf(kind::VARIABLE, bool, name);
        let body = plain(kind::IF, bool, &[name(1), name(2), leaf(kind::FALSE, bool, 0)]);
        let zip = counted(kind::ZIP, 3, outer, plain(kind::NATIVE, inner, &[body]));
        let truth = leaf(kind::TRUE, bool, 0);
        let looked = apply(bool, leaf(kind::FOREIGN, look, 901), &[]);
        (bools, apply(bools, zip, &[list(bools, &[truth.clone(), looked]), list(bools, &[truth.clone(), truth])]))
    }

    /// The first of each of a list of pairs, the second pair's called for.
    fn firsts(&mut self) -> (u16, Vec<Row>) {
        let file = self.table.file();
        let pair = self.table.tuple(&[self.str, file]);
        let pairs = self.table.list(pair);
        let called = self.locate(self.string(5));
        let element = |first| tuple(pair, &[first, leaf(kind::FILE, file, 1)]);
        let elements = list(pairs, &[element(self.string(4)), element(called)]);
        (self.strs, counted(kind::LIST_PROJECT, 1, self.strs, elements))
    }

    /// (fix of native f, x giving if isnil x then f(x) else second of {x, x})(nil), which never ends.
    fn endless(&mut self) -> (u16, Vec<Row>) {
        let strs = self.strs;
        let (f, x) = (11, 12);
        let rest = self.table.native(&[(x, strs)], strs);
        let whole = self.table.native(&[(f, rest), (x, strs)], strs);
        let both = self.table.tuple(&[strs, strs]);
        let x_row = leaf(kind::VARIABLE, strs, u32::from(x));
        let again = apply(strs, leaf(kind::VARIABLE, rest, u32::from(f)), std::slice::from_ref(&x_row));
        let second = counted(kind::PROJECT, 2, strs, tuple(both, &[x_row.clone(), x_row.clone()]));
        let body = plain(kind::IF, strs, &[plain(kind::ISNIL, self.bool, &[x_row]), again, second]);
        let fix = plain(kind::FIX, rest, &[plain(kind::NATIVE, whole, &[body])]);
        (strs, apply(strs, fix, &[leaf(kind::NIL, strs, 0)]))
    }

    /// All of these in one tuple, and more behind them.
    fn together(&mut self, more: Vec<(u16, Vec<Row>)>) -> (u16, Vec<Row>) {
        let mut parts = vec![self.pair(), self.zip(), self.firsts(), self.endless()];
        parts.extend(more);
        let (types, rows): (Vec<u16>, Vec<Vec<Row>>) = parts.into_iter().unzip();
        let ty = self.table.tuple(&types);
        (ty, tuple(ty, &rows))
    }
}

/// A routine after four calls and the reply to the second: three are open, and the endless part can go on.
fn middle() -> Kept {
    let mut routine = Routine::new();
    let (_, rows) = routine.together(vec![]);
    let mut record = loaded(&crate::table::file_of(&routine.table.rows, &rows));
    let mut work = vec![0; WORK_BYTES];
    for _ in 0..4 {
        crate::run(&mut record, &mut work, 100);
    }
    let found = |number, string| reply_of(number, &leaf(kind::STR, 0, string));
    assert_eq!(crate::reply(&mut record, &mut work, &found(2, 40)), Verdict::ACCEPTED);
    Kept { name: "middle", record, reply: found(1, 41) }
}

/// 256 types, 2,048 rows, 63 open calls and one number left: a run sends the last call that can be sent.
fn late() -> Kept {
    let mut routine = Routine::new();
    let (str, strs) = (routine.str, routine.strs);
    let waits = |number| leaf(kind::FUTURE, str, number);
    let waiting = routine.table.tuple(&[str, str, str]);
    let futures = tuple(waiting, &[waits(65_534), waits(65_534), waits(9)]);
    let filled = |strings: usize| {
        let strings: Vec<Vec<Row>> = (0..strings).map(|k| leaf(kind::STR, str, 1_000 + k as u32)).collect();
        (strs, list(strs, &strings))
    };
    let mut parts = vec![(waiting, futures.clone()), filled(0)];
    let rows_without = routine.together(parts.clone()).1.len();
    parts[1] = filled((MAX_ROWS - rows_without) / 2);
    if (MAX_ROWS - rows_without) % 2 == 1 {
        let one = routine.table.tuple(&[waiting]);
        parts[0] = (one, tuple(one, &[futures]));
    }
    let (ty, rows) = routine.together(parts);
    assert_eq!(rows.len(), MAX_ROWS);
    let mut names = 100;
    while routine.table.rows.len() < MAX_TYPES {
        let last = routine.table.rows.len() as u16 - 1;
        let arguments = [names, names + 1].map(|name| (name, last));
        names += 2;
        match last % 4 {
            0 => routine.table.native(&arguments, strs),
            1 => routine.table.tuple(&[last, str]),
            2 => routine.table.list(last),
            _ => routine.table.foreign(&[(names, str)], strs),
        };
    }
    // Calls 9 and 65,534 stand in the term, as strings; the others nowhere.
    let type_of = |number: u32| if number % 3 == 0 || number == 65_534 { str } else { strs };
    let open: Vec<Entry> = (1..=62).chain([65_534]).map(|number| Entry { number, ty: type_of(number) }).collect();
    let record = written(&routine.table.rows, &open, 65_535, ty, &rows);
    Kept { name: "late", record, reply: reply_of(65_534, &leaf(kind::STR, str, 41)) }
}

fn loaded(file: &[u8]) -> Vec<u8> {
    let mut record = vec![0; RECORD_BYTES];
    assert_eq!(crate::load(file, &mut record), Verdict::ACCEPTED);
    record
}

/// Some other values of a byte, or all of them.
pub fn other_values(old: u8, all: bool) -> Vec<u8> {
    if all {
        return (0..=255).filter(|&value| value != old).collect();
    }
    let mut values = Vec::new();
    for value in [old ^ 1, 0, old.wrapping_add(1), old ^ 0x80, 255] {
        if value != old && !values.contains(&value) {
            values.push(value);
        }
    }
    values.truncate(3);
    values
}

#[cfg(test)]
mod tests {
    use super::*;
    use crate::{Answer, Outcome};

    /// What a run of seven steps and the reply give of each record.
    #[test]
    fn each_record_is_sound_and_where_it_should_be() {
        let mut seen = Vec::new();
        for kept in three_records() {
            let count = |at| u16_at(&kept.record, at);
            let counts = [RECORD_TYPE_COUNT, RECORD_ROW_COUNT, RECORD_OPEN_COUNT].map(count);
            let ran = crate::run(&mut kept.record.clone(), &mut vec![0; WORK_BYTES], 7);
            let replied = crate::reply(&mut kept.record.clone(), &mut vec![0; WORK_BYTES], &kept.reply);
            seen.push((kept.name, counts, ran, replied.refusal));
        }
        let ran = |answer, sent, steps| Outcome::Ran { answer, sent, steps };
        assert_eq!(seen[0], ("early", [4, 6, 0], ran(Answer::Sent, 1, 2), 12));
        assert_eq!((seen[1].0, seen[1].1[2], seen[1].2, seen[1].3), ("middle", 3, ran(Answer::Budget, 0, 7), 0));
        assert_eq!(seen[2], ("late", [256, 2_048, 63], ran(Answer::Sent, 65_535, 2), 0));
    }

    #[test]
    fn other_values_are_others() {
        for old in 0..=255 {
            let some = other_values(old, false);
            assert!(some.len() == 3 && !some.contains(&old));
            assert_eq!(other_values(old, true).len(), 255);
        }
    }
}
