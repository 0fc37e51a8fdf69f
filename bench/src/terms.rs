//! The programs and records that are measured: each is made of so many rows, types, names or calls as it is asked for.

use evaluator::layout::{u16_at, RECORD_ROWS, ROW_BYTES, WORK_BYTES};
use evaluator::make::records::written;
use evaluator::record::Entry;
use evaluator::rows::{kind, Row};
use evaluator::table::{apply, file_of, leaf, list, plain, tuple, Table};

fn row(kind: u8, ty: u16) -> Row {
    Row { kind, n: 0, ty, word: 0 }
}

fn worded(kind: u8, ty: u16, word: usize) -> Row {
    Row { kind, n: 0, ty, word: word as u32 }
}

fn counted(kind: u8, ty: u16, n: u8) -> Row {
    Row { kind, n, ty, word: 0 }
}

/// An attachment routine of exactly so many rows (even, 40 or more): for teat after teat it locates the teat, looks
/// whether the way is clear and attaches a cup, and gives up as soon as one of these fails. The table is filled up to
/// the number of types.
fn routine_parts(rows: usize, types: usize) -> (Table, Vec<Row>) {
    const ROWS_A_TEAT: usize = 19;
    const TEAT: u16 = 1;
    let mut table = Table::default();
    let (str, file, bool) = (table.str(), table.file(), table.bool());
    let strs = table.list(str);
    let report = table.tuple(&[str, bool]);
    let locate = table.foreign(&[(TEAT, str)], str);
    let look = table.foreign(&[(2, file), (3, str)], bool);
    let attach = table.foreign(&[(4, str), (3, str)], report);
    fill(&mut table, types);

    let teats = (rows - 2) / ROWS_A_TEAT;
    let teats = teats - (rows - ROWS_A_TEAT * teats) % 2;
    let mut made = Vec::new();
    for teat in 0..teats {
        let (place, clear) = (10 + 2 * teat, 11 + 2 * teat);
        made.extend([worded(kind::LET, bool, place), counted(kind::APPLY, str, 1)]);
        made.extend([worded(kind::FOREIGN, locate, 1), worded(kind::STR, str, teat)]);
        made.extend([worded(kind::LET, bool, clear), counted(kind::APPLY, bool, 2), worded(kind::FOREIGN, look, 2)]);
        made.extend([worded(kind::FILE, file, teat), worded(kind::VARIABLE, str, place)]);
        made.extend([row(kind::IF, bool), worded(kind::VARIABLE, bool, clear)]);
        made.extend([row(kind::IF, bool), counted(kind::PROJECT, bool, 2), counted(kind::APPLY, report, 2)]);
        made.extend([worded(kind::FOREIGN, attach, 3), worded(kind::STR, str, 7), worded(kind::VARIABLE, str, place)]);
    }
    // What is left to do after the last teat: is the list of remaining strings empty?
    let left = rows - ROWS_A_TEAT * teats;
    made.push(row(kind::ISNIL, bool));
    for string in 0..left / 2 - 1 {
        made.extend([row(kind::CONS, strs), worded(kind::STR, str, string)]);
    }
    made.push(row(kind::NIL, strs));
    made.resize(rows, row(kind::FALSE, bool));
    (table, made)
}

pub fn routine(rows: usize, types: usize) -> Vec<u8> {
    let (table, rows) = routine_parts(rows, types);
    file_of(&table.rows, &rows)
}

/// The routine as a record, which has room for more rows than a file. Its term is a Bool.
pub fn record_of(rows: usize, types: usize) -> Vec<u8> {
    let (table, rows) = routine_parts(rows, types);
    written(&table.rows, &[], 1, rows[0].ty, &rows)
}

/// The routine after it has sent its first call, for a string.
pub fn after_a_call(rows: usize, types: usize) -> Vec<u8> {
    let mut record = record_of(rows, types);
    evaluator::run(&mut record, &mut vec![0; WORK_BYTES], 1_000);
    assert_eq!(u16_at(&record, 10), 1, "one call is open");
    record
}

/// Types of every form, most of them of eight parts, until the table has so many.
fn fill(table: &mut Table, types: usize) {
    let str = table.str();
    let mut last = str;
    let mut name = 100;
    while table.rows.len() < types {
        let arguments = [0, 1, 2, 3, 4, 5, 6, 7].map(|k| (name + k, if k == 3 { last } else { str }));
        name += 8;
        match table.rows.len() % 4 {
            0 => last = table.list(last),
            1 => last = table.tuple(&[str, str, last, str, str, last, str, last]),
            2 => _ = table.native(&arguments, last),
            _ => _ = table.foreign(&arguments, last),
        }
    }
}

/// Each type but the first is the tuple of eight times the one before; last a foreign function over the topmost, which
/// is the only row too.
pub fn eightfold_chain(types: usize) -> Vec<u8> {
    let mut table = Table::default();
    let mut top = table.str();
    while table.rows.len() < types - 1 {
        top = table.tuple(&[top; 8]);
    }
    let function = table.foreign(&[(1, top)], top);
    file_of(&table.rows, &[worded(kind::FOREIGN, function, 1)])
}

/// Tuples of eight, told apart by their last part alone, which is the type before; the only row is a string.
pub fn last_part_chain(types: usize) -> Vec<u8> {
    let mut table = Table::default();
    let str = table.str();
    let mut last = table.list(str);
    while table.rows.len() < types {
        last = table.tuple(&[str, str, str, str, str, str, str, last]);
    }
    file_of(&table.rows, &[worded(kind::STR, str, 7)])
}

/// So many lets, each of its own name, around a list of variables that fills the rows up: the name of each is chosen by
/// the number of lets (the innermost's name; the outermost's is 1) and the variable's place in the list.
pub fn names_under_lets(rows: usize, lets: usize, name: impl Fn(usize, usize) -> usize) -> Vec<u8> {
    let mut table = Table::default();
    let bool = table.bool();
    let bools = table.list(bool);
    let mut made = vec![row(kind::ISNIL, bool)];
    for binder in 1..=lets {
        made.extend([worded(kind::LET, bools, binder), row(kind::TRUE, bool)]);
    }
    push_variables(&mut made, rows, bools, bool, |which| name(lets, which));
    file_of(&table.rows, &made)
}

/// Functions of eight names, one in the other, about a quarter of the rows, around a list of variables: each the first
/// name of the innermost function, or the last of the outermost. The table is the same for all sizes.
pub fn names_under_functions(rows: usize, near: bool) -> Vec<u8> {
    const MOST: usize = 253;
    let levels = rows / 4 - 3;
    let mut table = Table::default();
    let bool = table.bool();
    let bools = table.list(bool);
    let mut functions = vec![bools];
    for level in 0..MOST {
        let names = [1, 2, 3, 4, 5, 6, 7, 8].map(|k| ((8 * level + k) as u16, bool));
        functions.push(table.native(&names, functions[level]));
    }
    // The innermost function is functions[1], with the names 1 to 8.
    let mut made: Vec<Row> = (1..=levels).rev().map(|level| row(kind::NATIVE, functions[level])).collect();
    let name = if near { 1 } else { 8 * levels };
    push_variables(&mut made, rows, bools, bool, |_| name);
    file_of(&table.rows, &made)
}

/// A list of variables that fills the rows up.
fn push_variables(made: &mut Vec<Row>, rows: usize, list: u16, element: u16, name: impl Fn(usize) -> usize) {
    let variables = (rows - made.len() - 1) / 2;
    for which in 0..variables {
        made.extend([row(kind::CONS, list), worded(kind::VARIABLE, element, name(which))]);
    }
    made.push(row(kind::NIL, list));
}

/// The file with another last row, of the same stated type.
pub fn with_last_row(mut file: Vec<u8>, kind: u8, word: u8) -> Vec<u8> {
    let at = file.len() - 8;
    file[at] = kind;
    file[at + 4] = word;
    file
}

/// The record with another kind of last row, of the same stated type.
pub fn with_last_record_row(mut record: Vec<u8>, kind: u8) -> Vec<u8> {
    let rows = usize::from(u16_at(&record, 8));
    record[RECORD_ROWS + (rows - 1) * ROW_BYTES] = kind;
    record
}

/// A list of strings of the types that `Strings` has, for a reply.
pub fn strings(count: usize) -> Vec<Row> {
    list(STRS, &vec![leaf(kind::STR, STR, 7); count])
}

/// The first types of the tables below.
const STR: u16 = 0;
const BOOL: u16 = 1;
const STRS: u16 = 2;

/// Str, Bool and List Str.
fn strings_table() -> Table {
    let mut table = Table::default();
    assert_eq!([table.str(), table.bool(), table.list(STR)], [STR, BOOL, STRS]);
    table
}

/// Rows one behind the other in a tuple, as a sound record with calls 1 and up open.
fn side_by_side(mut table: Table, parts: &[(u16, Vec<Row>)], open: &[Entry]) -> Vec<u8> {
    let types: Vec<u16> = parts.iter().map(|(ty, _)| *ty).collect();
    let rows: Vec<Vec<Row>> = parts.iter().map(|(_, rows)| rows.clone()).collect();
    let ty = table.tuple(&types);
    written(&table.rows, open, open.len() as u32 + 1, ty, &tuple(ty, &rows))
}

/// A list of strings of about so many rows, at least one.
fn filler(rows: usize) -> (u16, Vec<Row>) {
    (STRS, strings(rows.saturating_sub(1) / 2))
}

/// (fix of native f giving f())(), which takes a step and a step again for ever, in the place of a string.
fn endless(table: &mut Table) -> (u16, Vec<Row>) {
    let rest = table.native(&[], STR);
    let whole = table.native(&[(1, rest)], STR);
    let again = apply(STR, leaf(kind::VARIABLE, rest, 1), &[]);
    (STR, apply(STR, plain(kind::FIX, rest, &[plain(kind::NATIVE, whole, &[again])]), &[]))
}

/// The endless loop behind so many rows.
pub fn loop_behind(rows: usize) -> Vec<u8> {
    let mut table = strings_table();
    let parts = [filler(rows), endless(&mut table)];
    side_by_side(table, &parts, &[])
}

/// The endless loop before so many rows.
pub fn loop_before(rows: usize) -> Vec<u8> {
    let mut table = strings_table();
    let parts = [endless(&mut table), filler(rows)];
    side_by_side(table, &parts, &[])
}

/// Entries 1 to the count, of strings.
fn entries(count: usize, ty: u16) -> Vec<Entry> {
    (1..=count).map(|number| Entry { number: number as u32, ty }).collect()
}

/// A list of calls, the open ones in turn, 2,001 rows whatever their number.
pub fn waiting_calls(calls: usize) -> Vec<u8> {
    let futures: Vec<Vec<Row>> = (0..1_000).map(|k| leaf(kind::FUTURE, STR, (k % calls) as u32 + 1)).collect();
    side_by_side(strings_table(), &[(STRS, list(STRS, &futures))], &entries(calls, STR))
}

/// The same, and behind it a call to be sent.
pub fn with_a_call_left(calls: usize) -> Vec<u8> {
    let futures: Vec<Vec<Row>> = (0..1_000).map(|k| leaf(kind::FUTURE, STR, (k % calls) as u32 + 1)).collect();
    let mut table = strings_table();
    let locate = table.foreign(&[], STR);
    let parts = [(STRS, list(STRS, &futures)), (STR, apply(STR, leaf(kind::FOREIGN, locate, 900), &[]))];
    side_by_side(table, &parts, &entries(calls, STR))
}

/// let x = str 7 in a list of x, so many rows in all; each x becomes a string.
pub fn many_names(rows: usize) -> Vec<u8> {
    let table = strings_table();
    let body = list(STRS, &vec![leaf(kind::VARIABLE, STR, 1); (rows - 3) / 2]);
    let rows = evaluator::table::let_in(STRS, 1, leaf(kind::STR, STR, 7), body);
    written(&table.rows, &[], 1, STRS, &rows)
}

/// zip of (native a giving a) over a list of strings of so many rows.
pub fn zip_of(rows: usize) -> Vec<u8> {
    let mut table = strings_table();
    let inner = table.native(&[(1, STR)], STR);
    let outer = table.native(&[(1, STRS)], STRS);
    let function = plain(kind::NATIVE, inner, &[leaf(kind::VARIABLE, STR, 1)]);
    let zip = evaluator::table::counted(kind::ZIP, 1, outer, function);
    let rows = apply(STRS, zip, &[strings((rows - 5) / 2)]);
    written(&table.rows, &[], 1, STRS, &rows)
}

/// zip of (native a, b giving b) over two lists of strings, of so many rows in all.
pub fn zip_of_two(rows: usize) -> Vec<u8> {
    let mut table = strings_table();
    let inner = table.native(&[(1, STR), (2, STR)], STR);
    let outer = table.native(&[(1, STRS), (2, STRS)], STRS);
    let function = plain(kind::NATIVE, inner, &[leaf(kind::VARIABLE, STR, 2)]);
    let zip = evaluator::table::counted(kind::ZIP, 3, outer, function);
    let list = strings((rows - 6) / 4);
    let rows = apply(STRS, zip, &[list.clone(), list]);
    written(&table.rows, &[], 1, STRS, &rows)
}

/// Call 1, a list of strings, behind so many rows and before so many.
pub fn call_among(before: usize, behind: usize) -> Vec<u8> {
    let parts = [filler(before), (STRS, leaf(kind::FUTURE, STRS, 1)), filler(behind)];
    side_by_side(strings_table(), &parts, &entries(1, STRS))
}

/// A list of lists of strings, each of them call 1, so many rows in all.
pub fn call_in_places(rows: usize) -> Vec<u8> {
    let mut table = strings_table();
    let lists = table.list(STRS);
    let futures = vec![leaf(kind::FUTURE, STRS, 1); (rows - 2) / 2];
    side_by_side(table, &[(lists, list(lists, &futures))], &entries(1, STRS))
}
