//! The limits met from outside: rows of a term, open calls, call numbers, rows after a reply.

#![cfg_attr(not(feature = "run"), allow(dead_code, unused_imports))]

use crate::{run, Pair};
use evaluator::layout::{put_u32, MAX_ROWS, RECORD_NEXT};
use evaluator::make::records::written;
use evaluator::record::Entry;
use evaluator::rows::{kind, Row};
use evaluator::table::{apply, file_of, leaf, let_in, list, plain, reply_of, tuple, Table};
use tca::entries::reply;

const VALUE: u32 = 0;
const SENT: u32 = 2;
const HELD: u32 = 3;
const BUDGET: u32 = 4;
const ROOM: u32 = 5;
const NUMBERS: u32 = 6;

/// let x = a list of 340 truths (681 rows) in a tuple of x three times and so many strings: the next term has 2,044 rows
/// and the strings.
fn grows_to(rows: usize) -> Pair {
    let strings = rows - 2_044;
    let mut table = Table::default();
    let (str, bool) = (table.str(), table.bool());
    let bools = table.list(bool);
    let parts = [vec![bools; 3], vec![str; strings]].concat();
    let ty = table.tuple(&parts);
    let bound = list(bools, &vec![leaf(kind::TRUE, bool, 0); 340]);
    let elements = [vec![leaf(kind::VARIABLE, bools, 1); 3], vec![leaf(kind::STR, str, 5); strings]].concat();
    Pair::loaded(&file_of(&table.rows, &let_in(ty, 1, bound, tuple(ty, &elements))))
}

/// "a next term of 2,048 rows steps"
#[test]
#[cfg(feature = "run")]
fn a_next_term_of_2_048_rows_steps() {
    let mut pair = grows_to(2_048);
    assert_eq!((pair.run(0), pair.rows()), ((0, BUDGET, 0, 0), 690));
    assert_eq!((pair.run(1), pair.rows()), ((0, VALUE, 0, 1), 2_048));
    // The full record is sound.
    assert_eq!(pair.run(u32::MAX), (0, VALUE, 0, 0));
}

/// "2,049 is ROOM", also where no step may be made.
#[test]
#[cfg(feature = "run")]
fn a_next_term_of_2_049_rows_is_room() {
    let mut pair = grows_to(2_049);
    for budget in [0, 1, 7, 1_000, u32::MAX] {
        assert_eq!((pair.run(budget), pair.rows()), ((0, ROOM, 0, 0), 691));
    }
}

/// A list of so many calls for strings.
fn calls(count: usize) -> Pair {
    let mut table = Table::default();
    let str = table.str();
    let strs = table.list(str);
    let locate = table.foreign(&[], str);
    let call = apply(str, leaf(kind::FOREIGN, locate, 900), &[]);
    Pair::loaded(&file_of(&table.rows, &list(strs, &vec![call; count])))
}

fn string(number: u32) -> Vec<u8> {
    reply_of(number, &leaf(kind::STR, 0, number))
}

/// "the 65th send is HELD"
#[test]
fn the_64th_call_is_sent_and_the_65th_is_held() {
    let mut pair = calls(66);
    for number in 1..=64 {
        assert_eq!(pair.run(1_000), (0, SENT, number, 1));
    }
    for budget in [0, 1, u32::MAX] {
        assert_eq!(pair.run(budget), (0, HELD, 0, 0));
    }
    // Wherever a call is taken out, the next goes behind the others.
    assert_eq!(pair.reply(&string(32)), (0, 0));
    assert_eq!(pair.run(1), (0, SENT, 65, 1));
    assert_eq!(pair.run(1), (0, HELD, 0, 0));
    assert_eq!(pair.reply(&string(1)), (0, 0));
    assert_eq!(pair.reply(&string(64)), (0, 0));
    assert_eq!(pair.run(1), (0, SENT, 66, 1));
    assert_eq!(pair.reply(&string(64)), (12, 0));
    for number in (2..=31).chain(33..=63).chain([65, 66]) {
        assert_eq!(pair.reply(&string(number)), (0, 0));
    }
    assert_eq!(pair.run(0), (0, VALUE, 0, 0));
}

/// "number 65,535 is sent, then NUMBERS"
#[test]
fn number_65_535_is_sent_and_then_none() {
    let mut pair = calls(3);
    assert_eq!(pair.run(1), (0, SENT, 1, 1));
    for record in [&mut pair.library[0], &mut pair.evaluator[0]] {
        put_u32(record, RECORD_NEXT, 65_535);
    }
    assert_eq!(pair.run(1_000), (0, SENT, 65_535, 1));
    for budget in [0, 1, u32::MAX] {
        assert_eq!(pair.run(budget), (0, NUMBERS, 0, 0));
    }
    assert_eq!(pair.reply(&string(65_535)), (0, 0));
    assert_eq!(pair.run(1), (0, NUMBERS, 0, 0));
    assert_eq!(pair.reply(&string(1)), (0, 0));
    assert_eq!(pair.run(1), (0, NUMBERS, 0, 0));
}

/// HELD is named before NUMBERS.
#[test]
fn held_stands_before_numbers() {
    let mut pair = calls(65);
    for number in 1..=64 {
        assert_eq!(pair.run(1), (0, SENT, number, 1));
    }
    for record in [&mut pair.library[0], &mut pair.evaluator[0]] {
        put_u32(record, RECORD_NEXT, 65_536);
    }
    assert_eq!(pair.run(1), (0, HELD, 0, 0));
    assert_eq!(pair.reply(&string(7)), (0, 0));
    assert_eq!(pair.run(1), (0, NUMBERS, 0, 0));
}

/// From a load to the last number: a routine that calls again and again, (fix of native f giving if look() then f() else
/// f())(), each call replied to. By the library alone, as every number is known.
#[test]
#[cfg(feature = "run")]
fn every_number_is_sent_once() {
    let mut table = Table::default();
    let bool = table.bool();
    let look = table.foreign(&[], bool);
    let rest = table.native(&[], bool);
    let whole = table.native(&[(1, rest)], bool);
    let called = apply(bool, leaf(kind::FOREIGN, look, 900), &[]);
    let again = apply(bool, leaf(kind::VARIABLE, rest, 1), &[]);
    let body = plain(kind::IF, bool, &[called, again.clone(), again]);
    let fix = plain(kind::FIX, rest, &[plain(kind::NATIVE, whole, &[body])]);
    let [mut record, mut work] = Pair::loaded(&file_of(&table.rows, &apply(bool, fix, &[]))).library;
    for number in 1..=65_535 {
        let given = run(&mut record, &mut work, 1_000);
        // Fix, its application and the call; from the second call on also the if before them.
        let steps = if number == 1 { 3 } else { 4 };
        assert_eq!((given.answer, given.sent, given.steps), (SENT, number, steps));
        let truth = if number % 2 == 0 { kind::TRUE } else { kind::FALSE };
        assert_eq!(reply(&mut record, &mut work, &reply_of(number, &leaf(truth, bool, 0))).refusal, 0);
    }
    let given = run(&mut record, &mut work, 1_000);
    assert_eq!((given.refusal, given.answer, given.sent, given.steps), (0, NUMBERS, 0, 3));
}

/// A record of 2,048 - spare rows in which call 1, a list of strings, stands so many times.
fn room_for_a_reply(copies: usize, spare: usize) -> Pair {
    let mut table = Table::default();
    let str = table.str();
    let strs = table.list(str);
    let left = MAX_ROWS - spare - 1 - copies;
    let mut parts = vec![strs; copies + 1];
    let mut elements = vec![leaf(kind::FUTURE, strs, 1); copies];
    elements.push(list(strs, &vec![leaf(kind::STR, str, 7); (left - 1) / 2]));
    if left % 2 == 0 {
        parts.push(str);
        elements.push(leaf(kind::STR, str, 7));
    }
    let ty = table.tuple(&parts);
    let rows: Vec<Row> = tuple(ty, &elements);
    assert_eq!(rows.len(), MAX_ROWS - spare);
    Pair::of(written(&table.rows, &[Entry { number: 1, ty: strs }], 2, ty, &rows))
}

/// 16: "term would pass 2,048 rows", every future counted.
#[test]
fn a_reply_fits_to_the_last_row() {
    // 21 rows for one.
    let strings = reply_of(1, &list(1, &vec![leaf(kind::STR, 0, 9); 10]));
    for copies in 1..=6 {
        let mut pair = room_for_a_reply(copies, 20 * copies);
        assert_eq!((pair.reply(&strings), pair.rows()), ((0, 0), 2_048));
        assert_eq!(pair.run(0), (0, VALUE, 0, 0));
        let mut pair = room_for_a_reply(copies, 20 * copies - 1);
        assert_eq!(pair.reply(&strings), (16, 0));
        // The call is still open, and another reply fits.
        assert_eq!(pair.reply(&reply_of(1, &leaf(kind::NIL, 1, 0))), (0, 0));
    }
}
