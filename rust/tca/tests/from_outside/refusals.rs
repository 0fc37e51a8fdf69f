//! Refused runs and replies: each number, at its place, with no byte changed (as `Pair` sees at every call).

use crate::Pair;
use evaluator::compare::small_let;
use evaluator::layout::{put_u16, RECORD_ROWS, REPLY_HEAD};
use evaluator::make::kept::three_records;
use evaluator::rows::{kind, Row};
use evaluator::table::{file_of, leaf, list, reply_of, Table};

const fn row(kind: u8, n: u8, ty: u16, word: u32) -> Row {
    Row { kind, n, ty, word }
}

/// `locate()` for a list of strings, with call 1 open; Bool, Str, List Str and List Bool are types 0 to 3.
fn waiting_for_a_list() -> Pair {
    let mut table = Table::default();
    let (bool, str) = (table.bool(), table.str());
    let strs = table.list(str);
    table.list(bool);
    let locate = table.foreign(&[], strs);
    let rows = evaluator::table::apply(strs, leaf(kind::FOREIGN, locate, 900), &[]);
    let mut pair = Pair::loaded(&file_of(&table.rows, &rows));
    assert_eq!(pair.run(1), (0, 2, 1, 1));
    pair
}

const NIL: Row = row(kind::NIL, 0, 2, 0);
const CONS: Row = row(kind::CONS, 0, 2, 0);
const STRING: Row = row(kind::STR, 0, 1, 7);

#[test]
fn a_record_that_is_not_sound_is_refused_before_the_reply_is_looked_at() {
    for kept in three_records() {
        let mut record = kept.record;
        record[5] = 1;
        let mut pair = Pair::of(record);
        assert_eq!(pair.run(0), (10, 0, 0, 0));
        assert_eq!(pair.run(u32::MAX), (10, 0, 0, 0));
        assert_eq!(pair.reply(&kept.reply), (10, 0));
        assert_eq!(pair.reply(&[]), (10, 0));
    }
}

#[test]
fn a_program_file_is_no_record() {
    let mut file = small_let();
    file.resize(tca::RECORD_BYTES, 0);
    assert_eq!(Pair::of(file.clone()).run(5), (10, 0, 0, 0));
    assert_eq!(Pair::of(file).reply(&[]), (10, 0));
}

/// 11: "reply header or length".
#[test]
fn a_reply_of_another_head_or_length_is_refused() {
    let mut pair = waiting_for_a_list();
    let right = reply_of(1, &[CONS, STRING, NIL]);
    for length in (0..right.len()).chain([right.len() + 1, right.len() + 8, 40_000]) {
        let mut other = right.clone();
        other.resize(length, 0);
        assert_eq!(pair.reply(&other), (11, 0), "{length} bytes");
    }
    for (at, value) in [(4, 0), (4, 2), (4, 4), (5, 1), (6, 1), (7, 1), (7, 255)] {
        let mut other = right.clone();
        other[at] = value;
        assert_eq!(pair.reply(&other), (11, 0), "byte {at} is {value}");
    }
    assert_eq!(pair.reply(&reply_of(1, &[])), (11, 0));
    // The head is looked at before the number.
    assert_eq!(pair.reply(&reply_of(7, &[])), (11, 0));
    assert_eq!(pair.reply(&right), (0, 0));
}

/// 12: "number not open".
#[test]
fn a_reply_to_a_number_that_is_not_open_is_refused() {
    let mut pair = waiting_for_a_list();
    for number in [0, 2, 65_535, 65_536, 65_537, u32::MAX, 1 << 16 | 1] {
        assert_eq!(pair.reply(&reply_of(number, &[NIL])), (12, 0), "number {number}");
    }
    assert_eq!(pair.reply(&reply_of(1, &[NIL])), (0, 0));
    assert_eq!(pair.reply(&reply_of(1, &[NIL])), (12, 0));
}

/// "if the number stands nowhere, only the entry goes"
#[test]
fn a_reply_to_a_call_that_stands_nowhere_takes_the_entry_out() {
    let [_, _, late] = three_records();
    let mut pair = Pair::of(late.record);
    // Of its calls 1 to 62 only 9 stands in the term; every third is a string.
    for number in [3, 30, 60] {
        let rows = pair.rows();
        assert_eq!(pair.reply(&reply_of(number, &leaf(kind::STR, 0, 1))), (0, 0));
        assert_eq!((pair.reply(&reply_of(number, &leaf(kind::STR, 0, 1))), pair.rows()), ((12, 0), rows));
    }
}

/// "replaces every future of its number": 65,534 stands twice, below a tuple.
#[test]
fn a_reply_replaces_every_future_of_its_number() {
    let [_, _, late] = three_records();
    let mut pair = Pair::of(late.record);
    let futures = |pair: &Pair| pair.library[0][RECORD_ROWS..].chunks(8).filter(|row| row[0] == kind::FUTURE).count();
    assert_eq!(futures(&pair), 3);
    assert_eq!(pair.reply(&late.reply), (0, 0));
    assert_eq!(futures(&pair), 1);
}

/// 13: "reply row, as 7".
#[test]
fn a_reply_of_another_form_is_refused_at_its_row() {
    let mut pair = waiting_for_a_list();
    assert_eq!(pair.reply(&reply_of(1, &[CONS, row(99, 0, 1, 0), NIL])), (13, 1));
    assert_eq!(pair.reply(&reply_of(1, &[CONS, STRING, row(kind::NIL, 1, 2, 0)])), (13, 2));
    assert_eq!(pair.reply(&reply_of(1, &[CONS, row(kind::STR, 0, 5, 7), NIL])), (13, 1));
    assert_eq!(pair.reply(&reply_of(1, &[CONS, row(kind::FUTURE, 0, 1, 0), NIL])), (13, 1));
    assert_eq!(pair.reply(&reply_of(1, &[NIL, NIL])), (13, 1));
    // Unfinished: the row count.
    assert_eq!(pair.reply(&reply_of(1, &[CONS, STRING])), (13, 2));
}

/// 14: "first reply row not of kind 1 to 4, 12, 13, 16".
#[test]
fn a_reply_that_is_no_plain_value_is_refused_at_its_row() {
    let mut pair = waiting_for_a_list();
    assert_eq!(pair.reply(&reply_of(1, &[CONS, row(kind::FUTURE, 0, 1, 1), NIL])), (14, 1));
    assert_eq!(pair.reply(&reply_of(1, &[CONS, row(kind::VARIABLE, 0, 1, 1), NIL])), (14, 1));
    assert_eq!(pair.reply(&reply_of(1, &[row(kind::LET, 0, 2, 1), STRING, NIL])), (14, 0));
    assert_eq!(pair.reply(&reply_of(1, &[row(kind::FOREIGN, 0, 4, 900)])), (14, 0));
    // Form before kinds, kinds before typing.
    assert_eq!(pair.reply(&reply_of(1, &[CONS, row(kind::FUTURE, 0, 1, 1), row(99, 0, 2, 0)])), (13, 2));
    assert_eq!(pair.reply(&reply_of(1, &[row(kind::CONS, 0, 3, 0), STRING, row(kind::VARIABLE, 0, 2, 1)])), (14, 2));
}

/// 15: "first reply row that fails typing; row 0 must also have the listed type".
#[test]
fn a_reply_of_another_type_is_refused_at_its_row() {
    let mut pair = waiting_for_a_list();
    assert_eq!(pair.reply(&reply_of(1, &[STRING])), (15, 0));
    assert_eq!(pair.reply(&reply_of(1, &[row(kind::NIL, 0, 3, 0)])), (15, 0));
    // "Taking a reply by its outer type only: a list whose tail is of another type."
    assert_eq!(pair.reply(&reply_of(1, &[CONS, STRING, row(kind::NIL, 0, 3, 0)])), (15, 0));
    assert_eq!(pair.reply(&reply_of(1, &[CONS, STRING, CONS, STRING, row(kind::NIL, 0, 3, 0)])), (15, 2));
    assert_eq!(pair.reply(&reply_of(1, &[CONS, row(kind::TRUE, 0, 1, 0), NIL])), (15, 1));
}

/// "256 reply rows pass, 257 give 11".
#[test]
fn a_reply_has_at_most_256_rows() {
    let strings = |count: usize| list(2, &vec![leaf(kind::STR, 1, 7); count]);
    let mut pair = waiting_for_a_list();
    assert_eq!(strings(128).len(), 257);
    assert_eq!(pair.reply(&reply_of(1, &strings(128))), (11, 0));
    // Its count claims 256 rows, but its length is that of 257.
    let mut claimed = reply_of(1, &strings(128));
    put_u16(&mut claimed, 4, 256);
    assert_eq!(claimed.len(), REPLY_HEAD + 257 * 8);
    assert_eq!(pair.reply(&claimed), (11, 0));
    // 256 rows that end too late are of bad form, not too many; 255 rows that fit are taken.
    let mut rows = strings(127);
    rows.push(STRING);
    assert_eq!(pair.reply(&reply_of(1, &rows)), (13, 255));
    assert_eq!(pair.reply(&reply_of(1, &strings(127))), (0, 0));
    assert_eq!((pair.run(0), pair.rows()), ((0, 0, 0, 0), 255));
}

/// A tuple makes 256 rows fit.
#[test]
fn a_reply_of_256_rows_is_taken() {
    let mut table = Table::default();
    let str = table.str();
    let strs = table.list(str);
    let one = table.tuple(&[strs]);
    let locate = table.foreign(&[], one);
    let rows = evaluator::table::apply(one, leaf(kind::FOREIGN, locate, 900), &[]);
    let mut pair = Pair::loaded(&file_of(&table.rows, &rows));
    assert_eq!(pair.run(1), (0, 2, 1, 1));
    let reply = evaluator::table::tuple(one, &[list(strs, &vec![leaf(kind::STR, str, 7); 127])]);
    assert_eq!(reply.len(), 256);
    assert_eq!(pair.reply(&reply_of(1, &reply)), (0, 0));
    assert_eq!((pair.run(0), pair.rows()), ((0, 0, 0, 0), 256));
}
