//! The bench sheet's sessions by the library: every number is document 01's.

#![cfg_attr(not(feature = "run"), allow(unused_imports))]

use crate::{document_file, Pair};
use evaluator::compare::small_let;
use evaluator::layout::{u16_at, u32_at, RECORD_ROWS};
use evaluator::rows::{encode_rows, kind, Row};
use evaluator::table::{apply, file_of, leaf, list, reply_of, tuple, Table};

const VALUE: u32 = 0;
const WAITING: u32 = 1;
const SENT: u32 = 2;
const BUDGET: u32 = 4;

/// "if true then str 7 else str 8: 1 step, str 7. Budget 0: BUDGET, 0 steps."
#[test]
#[cfg(feature = "run")]
fn if_true() {
    let mut pair = Pair::loaded(&document_file());
    assert_eq!(pair.run(0), (0, BUDGET, 0, 0));
    assert_eq!(pair.run(1), (0, VALUE, 0, 1));
    assert_eq!(pair.library[0][RECORD_ROWS..RECORD_ROWS + 8], [1, 0, 0, 0, 7, 0, 0, 0]);
    assert_eq!(pair.run(u32::MAX), (0, VALUE, 0, 0));
}

/// "let p = locate() in {p, p}: 6 rows, then 5; SENT 1; SENT 2; WAITING with 3 rows. Reply str 41 to 2, str 40 to 1:
/// {str 40, str 41}. A second reply to 1: 12. A Bool for 1 while open, Bool being in the type table: 15, place 0."
#[test]
fn let_p() {
    let mut pair = Pair::loaded(&small_let());
    assert_eq!(pair.rows(), 6);
    assert_eq!((pair.run(1), pair.rows()), ((0, BUDGET, 0, 1), 5));
    assert_eq!((pair.run(1_000), pair.rows()), ((0, SENT, 1, 1), 4));
    assert_eq!((pair.run(1_000), pair.rows()), ((0, SENT, 2, 1), 3));
    // The sent call: number 2, tool 900, no rows, result type 0.
    let work = &pair.library[1];
    assert_eq!((u32_at(work, 0), u32_at(work, 4), u16_at(work, 8), u16_at(work, 10)), (2, 900, 0, 0));
    assert!(crate::is_zero(&work[12..]));
    assert_eq!((pair.run(1_000), pair.rows()), ((0, WAITING, 0, 0), 3));
    let string = |number, word| reply_of(number, &leaf(kind::STR, 0, word));
    assert_eq!(pair.reply(&reply_of(1, &leaf(kind::TRUE, 1, 0))), (15, 0));
    assert_eq!(pair.reply(&string(2, 41)), (0, 0));
    assert_eq!(pair.reply(&string(1, 40)), (0, 0));
    assert_eq!(pair.reply(&string(1, 40)), (12, 0));
    assert_eq!(pair.run(1_000), (0, VALUE, 0, 0));
    let row = |kind, n, ty, word| Row { kind, n, ty, word };
    let wanted = encode_rows(&[row(kind::TUPLE, 2, 3, 0), row(kind::STR, 0, 0, 40), row(kind::STR, 0, 0, 41)]);
    assert_eq!(pair.library[0][RECORD_ROWS..RECORD_ROWS + 24], wanted);
}

/// The same through the wrapper's types.
#[test]
#[cfg(feature = "run")]
fn let_p_in_words() {
    use tca::{Answer, Open, Refusal, Row, Work};
    let mut record = tca::load(&small_let()).unwrap();
    let mut work = Work::new();
    let mut calls = Vec::new();
    for number in [1, 2] {
        let ran = tca::run(&mut record, &mut work, 1_000).unwrap();
        let Answer::Sent(call) = ran.answer else { panic!("{}", ran.answer) };
        assert_eq!((call.number, call.tool, call.result, call.rows.len()), (number, 900, 0, 0));
        assert_eq!(call.to_bytes()[..], work.as_bytes()[..12]);
        calls.push(call);
    }
    assert_eq!(record.open_calls().collect::<Vec<_>>(), [Open { number: 1, ty: 0 }, Open { number: 2, ty: 0 }]);
    assert_eq!(tca::run(&mut record, &mut work, 1_000).unwrap().answer, Answer::Waiting);
    let kept = record.clone();
    let truth = Row { kind: 3, n: 0, ty: 1, word: 0 };
    let refused = tca::reply(&mut record, &mut work, &calls[0].reply(&[truth])).unwrap_err();
    assert_eq!((refused.refusal, refused.place), (Refusal::ReplyTyping, 0));
    assert_eq!(record, kept);
    // Kept as bytes and taken up again.
    let mut record = tca::Record::from_bytes(record.as_bytes()).unwrap();
    let string = |word| Row { kind: 1, n: 0, ty: 0, word };
    assert_eq!(tca::reply(&mut record, &mut work, &calls[1].reply(&[string(41)])), Ok(()));
    assert_eq!(tca::reply(&mut record, &mut work, &calls[0].reply(&[string(40)])), Ok(()));
    let again = tca::reply(&mut record, &mut work, &calls[0].reply(&[string(40)])).unwrap_err();
    assert_eq!(again.refusal, Refusal::NotOpen);
    let ran = tca::run(&mut record, &mut work, 1_000).unwrap();
    assert_eq!((ran.answer, ran.steps), (Answer::Value, 0));
    let tuple = Row { kind: 16, n: 2, ty: 3, word: 0 };
    assert_eq!(record.rows().collect::<Vec<_>>(), [tuple, string(40), string(41)]);
    assert_eq!(record.open_calls().count(), 0);
}

#[test]
fn a_record_that_no_load_made_is_unsound() {
    let mut record = tca::Record::from_bytes(&[0; tca::RECORD_BYTES]).unwrap();
    let mut work = tca::Work::from_bytes(&[7; tca::WORK_BYTES]).unwrap();
    let unsound = tca::Refused { refusal: tca::Refusal::Unsound, place: 0 };
    #[cfg(feature = "run")]
    assert_eq!(tca::run(&mut record, &mut work, 5), Err(unsound));
    assert_eq!(tca::reply(&mut record, &mut work, &[]), Err(unsound));
    assert!(work.as_bytes().iter().all(|&byte| byte == 7));
}

/// A call's arguments one behind the other: attach({str 1, str 2}, [true]) sends 3 + 3 rows.
#[test]
#[cfg(feature = "run")]
fn a_call_holds_the_rows_of_all_its_arguments() {
    let mut table = Table::default();
    let (str, bool) = (table.str(), table.bool());
    let (pair, bools) = (table.tuple(&[str, str]), table.list(bool));
    let attach = table.foreign(&[(1, pair), (2, bools)], str);
    let first = tuple(pair, &[leaf(kind::STR, str, 1), leaf(kind::STR, str, 2)]);
    let second = list(bools, &[leaf(kind::TRUE, bool, 0)]);
    let rows = apply(str, leaf(kind::FOREIGN, attach, 65_535), &[first.clone(), second.clone()]);
    let mut machines = Pair::loaded(&file_of(&table.rows, &rows));
    assert_eq!((machines.run(1), machines.rows()), ((0, SENT, 1, 1), 1));
    let call = tca::Call::from_bytes(&machines.library[1]).unwrap();
    assert_eq!((call.number, call.tool, call.result, call.rows.len()), (1, 65_535, str, 6));
    assert_eq!(call.to_bytes()[12..], encode_rows(&[first, second].concat()));
    assert!(crate::is_zero(&machines.library[1][12 + 6 * 8..]));
}
