//! The readings of document 01, each as one small case written by hand.

use evaluator::layout::*;
use evaluator::make::records::written;
use evaluator::record::Entry;
use evaluator::rows::{decode_rows, kind, Row};
use evaluator::table::*;
use evaluator::types::{Part, TypeRow, FOREIGN, NATIVE, TUPLE};
use evaluator::{load, reply, run, Answer, Outcome, Verdict};

fn loads(table: &Table, rows: &[Row]) -> (u32, u32) {
    loads_file(&file_of(&table.rows, rows))
}

fn loads_file(file: &[u8]) -> (u32, u32) {
    let verdict = load(file, &mut vec![0; RECORD_BYTES]);
    (verdict.refusal, verdict.place)
}

/// A record lent for runs and replies.
struct Stall(Vec<u8>, Vec<u8>);

impl Stall {
    fn of(table: &Table, open: &[(u32, u16)], next: u32, rows: &[Row]) -> Stall {
        let open: Vec<Entry> = open.iter().map(|&(number, ty)| Entry { number, ty }).collect();
        Stall(written(&table.rows, &open, next, rows[0].ty, rows), vec![1; WORK_BYTES])
    }

    fn runs(&mut self, budget: u32) -> (Answer, u32, u32) {
        match run(&mut self.0, &mut self.1, budget) {
            Outcome::Ran { answer, sent, steps } => (answer, sent, steps),
            refused => panic!("{refused:?}"),
        }
    }

    fn replies(&mut self, bytes: &[u8]) -> (u32, u32) {
        let verdict = reply(&mut self.0, &mut self.1, bytes);
        (verdict.refusal, verdict.place)
    }

    fn rows(&self) -> Vec<Row> {
        let count = usize::from(u16_at(&self.0, RECORD_ROW_COUNT));
        decode_rows(&self.0[RECORD_ROWS..RECORD_ROWS + count * ROW_BYTES])
    }
}

fn yes(bool: u16) -> Vec<Row> {
    leaf(kind::TRUE, bool, 0)
}

fn name(ty: u16, name: u32) -> Vec<Row> {
    leaf(kind::VARIABLE, ty, name)
}

fn future(ty: u16, number: u32) -> Vec<Row> {
    leaf(kind::FUTURE, ty, number)
}

#[test]
fn reading_1_a_parent_is_named_before_its_child() {
    let mut table = Table::default();
    let str = table.str();
    table.bool();
    let rows = plain(kind::IF, str, &[yes(str), leaf(kind::STR, str, 1), leaf(kind::STR, str, 2)]);
    assert_eq!(loads(&table, &rows), (9, 0));
}

#[test]
fn reading_2_fix_of_a_function_that_states_a_tuple_fails_at_the_fix() {
    let mut table = Table::default();
    let str = table.str();
    let f = table.native(&[], str);
    let one = table.tuple(&[f]);
    let fix = plain(kind::FIX, f, &[plain(kind::NATIVE, one, &[leaf(kind::STR, str, 1)])]);
    assert_eq!(loads(&table, &apply(str, fix, &[])), (9, 1));
}

#[test]
fn reading_3_fields_are_7_and_reach_is_9() {
    let mut table = Table::default();
    let str = table.str();
    let (strs, one) = (table.list(str), table.tuple(&[str]));
    let inner = table.native(&[(1, str)], str);
    let outer = table.native(&[(1, strs)], strs);
    let function = plain(kind::NATIVE, inner, &[name(str, 1)]);
    for (mask, verdict) in [(0, (7, 0)), (1, (0, 0)), (2, (9, 0)), (3, (9, 0)), (255, (9, 0))] {
        assert_eq!(loads(&table, &counted(kind::ZIP, mask, outer, function.clone())), verdict, "mask {mask}");
    }
    let one_of = tuple(one, &[leaf(kind::STR, str, 1)]);
    for (place, verdict) in [(0, (7, 0)), (1, (0, 0)), (2, (9, 0)), (8, (9, 0)), (9, (7, 0))] {
        assert_eq!(loads(&table, &counted(kind::PROJECT, place, str, one_of.clone())), verdict, "place {place}");
    }
}

#[test]
fn readings_4_and_5_what_a_record_must_hold() {
    let mut table = Table::default();
    let (str, bool) = (table.str(), table.bool());
    let f = table.native(&[], str);
    let rows = leaf(kind::STR, str, 1);
    let runs = |open: &[(u32, u16)], next: u32, program_type: u16| {
        let open: Vec<Entry> = open.iter().map(|&(number, ty)| Entry { number, ty }).collect();
        let mut record = written(&table.rows, &open, next, program_type, &rows);
        match run(&mut record, &mut [0; WORK_BYTES], 1) {
            Outcome::Refused(verdict) => (verdict.refusal, verdict.place),
            Outcome::Ran { .. } => (0, 0),
        }
    };
    assert_eq!(runs(&[], 1, str), (0, 0));
    assert_eq!(runs(&[], 65_536, str), (0, 0));
    assert_eq!(runs(&[(1, str), (2, bool)], 3, str), (0, 0));
    for (open, next, program_type) in [
        (&[(1, str), (1, str)][..], 3, str),
        (&[(2, str), (1, str)], 3, str),
        (&[(0, str)], 3, str),
        (&[(3, str)], 3, str),
        (&[(1, f)], 3, str),
        (&[(1, 3)], 3, str),
        (&[], 0, str),
        (&[], 65_537, str),
        (&[], 1, bool),
        (&[], 1, 3),
    ] {
        assert_eq!(runs(open, next, program_type), (10, 0), "{open:?} {next} {program_type}");
    }
}

#[test]
fn reading_6_of_two_equal_type_rows_the_later_is_bad() {
    let types = [TypeRow::plain(1), TypeRow::plain(3), TypeRow::plain(1), TypeRow::plain(3)];
    assert_eq!(loads_file(&file_of(&types, &leaf(kind::STR, 0, 1))), (6, 2));
    let unused = TypeRow { pairs: [Part { name: 0, ty: 0 }; 8], result: 0, ..TypeRow::list(0) };
    assert_eq!(loads_file(&file_of(&[TypeRow::plain(1), unused], &leaf(kind::NIL, 1, 0))), (0, 0));
    let mut spare = TypeRow::of_parts(TUPLE, &[Part { name: 0, ty: 0 }], 0);
    spare.pairs[3].ty = 1;
    assert_eq!(loads_file(&file_of(&[TypeRow::plain(1), TypeRow::plain(2), spare], &leaf(kind::STR, 0, 1))), (6, 2));
    assert_eq!(loads_file(&file_of(&[TypeRow::plain(3)], &leaf(kind::TRUE, 0, 1))), (7, 0));
}

#[test]
fn type_0_is_a_type_like_any_other() {
    let list_of_itself = [TypeRow::list(0)];
    assert_eq!(loads_file(&file_of(&list_of_itself, &leaf(kind::NIL, 0, 0))), (6, 0));
    let locate = [TypeRow::plain(1), TypeRow::of_parts(FOREIGN, &[], 0)];
    assert_eq!(loads_file(&file_of(&locate, &leaf(kind::FOREIGN, 1, 1))), (0, 0));
    let not_ground = [TypeRow::plain(1), TypeRow::of_parts(NATIVE, &[], 0), TypeRow::list(1)];
    let mut with_foreign = not_ground.to_vec();
    with_foreign.push(TypeRow::of_parts(FOREIGN, &[Part { name: 1, ty: 2 }], 0));
    assert_eq!(loads_file(&file_of(&not_ground, &leaf(kind::NIL, 2, 0))), (0, 0));
    assert_eq!(loads_file(&file_of(&with_foreign, &leaf(kind::NIL, 2, 0))), (6, 3));
}

#[test]
fn readings_7_8_and_9_replies_in_their_order() {
    let mut table = Table::default();
    let (str, bool) = (table.str(), table.bool());
    let strs = table.list(str);
    let mut stall = Stall::of(&table, &[(4, strs)], 5, &future(strs, 4));
    let good = leaf(kind::NIL, strs, 0);
    let bytes = reply_of(4, &good);
    assert_eq!(stall.replies(&bytes[..7]), (11, 0));
    assert_eq!(stall.replies(&reply_of(4, &[])), (11, 0));
    assert_eq!(stall.replies(&reply_of(9, &[])), (11, 0));
    let mut nonzero = bytes.clone();
    nonzero[7] = 1;
    assert_eq!(stall.replies(&nonzero), (11, 0));
    for number in [0, 3, 5, 65_536, u32::MAX] {
        assert_eq!(stall.replies(&reply_of(number, &future(99, 0))), (12, 0), "number {number}");
    }
    let one = leaf(kind::STR, str, 1);
    let cons = |head: Vec<Row>, tail: Vec<Row>| reply_of(4, &plain(kind::CONS, strs, &[head, tail]));
    assert_eq!(stall.replies(&cons(one.clone(), future(strs, 0))), (13, 2));
    assert_eq!(stall.replies(&cons(future(bool, 4), future(strs, 0))), (13, 2));
    assert_eq!(stall.replies(&reply_of(4, &plain(kind::CONS, strs, std::slice::from_ref(&one)))), (13, 2));
    assert_eq!(stall.replies(&reply_of(4, &[good.clone(), one.clone()].concat())), (13, 1));
    assert_eq!(stall.replies(&cons(leaf(kind::STR, bool, 1), future(strs, 4))), (14, 2));
    assert_eq!(stall.replies(&reply_of(4, &yes(bool))), (15, 0));
    assert_eq!(stall.replies(&reply_of(4, &yes(str))), (15, 0));
    assert_eq!(stall.replies(&cons(leaf(kind::FILE, str, 1), good.clone())), (15, 1));
    assert_eq!(stall.1, vec![1; WORK_BYTES], "a refused call leaves the work buffer as it was");
    assert_eq!(stall.replies(&bytes), (0, 0));
    assert_eq!(stall.1, vec![0; WORK_BYTES]);
}

#[test]
fn reading_8_futures_in_a_program() {
    let mut table = Table::default();
    let (str, bool) = (table.str(), table.bool());
    let rows = |future_row: Vec<Row>| plain(kind::IF, bool, &[leaf(kind::STR, str, 1), yes(str), future_row]);
    assert_eq!(loads(&table, &rows(future(bool, 0))), (7, 3));
    assert_eq!(loads(&table, &rows(future(bool, 1))), (8, 3));
    assert_eq!(loads(&table, &rows(yes(bool))), (9, 0));
}

/// An application of a zip over two lists, with a third argument that is not masked.
fn zip_of_three(table: &mut Table, first: Vec<Row>, second: Vec<Row>, third: Vec<Row>) -> Vec<Row> {
    let str = table.str();
    let strs = table.list(str);
    let inner = table.native(&[(1, str), (2, str), (3, str)], str);
    let outer = table.native(&[(1, strs), (2, strs), (3, str)], strs);
    let function = plain(kind::NATIVE, inner, &[name(str, 3)]);
    apply(strs, counted(kind::ZIP, 3, outer, function), &[first, second, third])
}

#[test]
fn reading_10_zip_waits_on_the_unready_and_never_steps_the_unmasked() {
    let mut table = Table::default();
    let (str, bool) = (table.str(), table.bool());
    let strs = table.list(str);
    let nil = || leaf(kind::NIL, strs, 0);
    let choice = |ty: u16, one: Vec<Row>, other: Vec<Row>| plain(kind::IF, ty, &[yes(bool), one, other]);
    let third = choice(str, leaf(kind::STR, str, 1), leaf(kind::STR, str, 2));
    // A nil and a waiting argument: it waits.
    let rows = zip_of_three(&mut table, nil(), future(strs, 1), third.clone());
    assert_eq!(Stall::of(&table, &[(1, strs)], 2, &rows).runs(9), (Answer::Waiting, 0, 0));
    // The first unready one cannot step: the next is tried.
    let rows = zip_of_three(&mut table, future(strs, 1), choice(strs, nil(), nil()), third.clone());
    assert_eq!(Stall::of(&table, &[(1, strs)], 2, &rows).runs(9), (Answer::Waiting, 0, 1));
    // All ready: the unmasked argument goes whole into both parts.
    let one = list(strs, &[leaf(kind::STR, str, 7)]);
    let rows = zip_of_three(&mut table, one.clone(), one, third.clone());
    let mut stall = Stall::of(&table, &[], 1, &rows);
    assert_eq!(stall.runs(1), (Answer::Budget, 0, 1));
    let after = stall.rows();
    // Before: 1 apply, 1 zip, 2 of the function, 3 and 3 of the lists, 4 of the third. After: a cons, the function on two
    // heads (1 + 2 + 1 + 1 + 4 rows), the zip on two nils (1 + 1 + 2 + 1 + 1 + 4 rows).
    assert_eq!((rows.len(), after.len()), (14, 20));
    assert_eq!(after.windows(third.len()).filter(|rows| **rows == third[..]).count(), 2);
}

#[test]
fn reading_11_a_waiting_place_is_passed_over_and_a_send_is_not_put_off() {
    let mut table = Table::default();
    let (str, bool) = (table.str(), table.bool());
    let locate = table.foreign(&[], str);
    let triple = table.tuple(&[str, str, bool]);
    let call = || apply(str, leaf(kind::FOREIGN, locate, 1), &[]);
    let choice = plain(kind::IF, bool, &[yes(bool), yes(bool), yes(bool)]);
    let rows = tuple(triple, &[future(str, 1), call(), choice]);
    let mut stall = Stall::of(&table, &[(1, str)], 2, &rows);
    assert_eq!(stall.runs(9), (Answer::Sent, 2, 1));
    assert_eq!(stall.runs(9), (Answer::Waiting, 0, 1));
    // 64 open calls: the send holds the run although the choice could be made.
    let open: Vec<(u32, u16)> = (1..=64).map(|number| (number, str)).collect();
    assert_eq!(Stall::of(&table, &open, 65, &rows).runs(9), (Answer::Held, 0, 0));
    assert_eq!(Stall::of(&table, &[(1, str)], 65_536, &rows).runs(9), (Answer::Numbers, 0, 0));
    assert_eq!(Stall::of(&table, &open, 65_536, &rows).runs(0), (Answer::Held, 0, 0));
}

#[test]
fn reading_12_all_arguments_go_in_at_once_and_hidden_names_stay() {
    let mut table = Table::default();
    let bool = table.bool();
    let pair = table.tuple(&[bool, bool]);
    let inner = table.native(&[(1, bool)], pair);
    let outer = table.native(&[(1, bool), (2, bool)], pair);
    let no = || leaf(kind::FALSE, bool, 0);
    let hiding = plain(kind::NATIVE, inner, &[tuple(pair, &[name(bool, 1), name(bool, 2)])]);
    let body = apply(pair, hiding, &[name(bool, 2)]);
    let rows = apply(pair, plain(kind::NATIVE, outer, &[body]), &[yes(bool), no()]);
    let mut stall = Stall::of(&table, &[], 1, &rows);
    assert_eq!(stall.runs(1), (Answer::Budget, 0, 1));
    let hiding = plain(kind::NATIVE, inner, &[tuple(pair, &[name(bool, 1), no()])]);
    assert_eq!(stall.rows(), apply(pair, hiding, &[no()]));
}

#[test]
fn reading_13_a_bound_term_sees_the_outer_binder() {
    let mut table = Table::default();
    let (str, bool) = (table.str(), table.bool());
    let bools = table.list(bool);
    // let n1 = true in let n1 = cons n1 nil in isnil n1
    let bound = list(bools, &[name(bool, 1)]);
    let inner = let_in(bool, 1, bound, plain(kind::ISNIL, bool, &[name(bools, 1)]));
    let rows = let_in(bool, 1, yes(bool), inner);
    assert_eq!(loads(&table, &rows), (0, 0));
    assert_eq!(Stall::of(&table, &[], 1, &rows).runs(9), (Answer::Value, 0, 3));
    assert_eq!(loads(&table, &let_in(str, 1, name(str, 1), leaf(kind::STR, str, 1))), (9, 1));
}

#[test]
fn reading_14_one_future_many_times_and_below_binders() {
    let mut table = Table::default();
    let str = table.str();
    let f = table.native(&[(1, str)], str);
    let pair = table.tuple(&[f, str]);
    let rows = tuple(pair, &[plain(kind::NATIVE, f, &[future(str, 3)]), future(str, 3)]);
    let mut stall = Stall::of(&table, &[(2, str), (3, str)], 9, &rows);
    assert_eq!(stall.runs(9), (Answer::Waiting, 0, 0));
    assert_eq!(stall.replies(&reply_of(2, &leaf(kind::STR, str, 8))), (0, 0));
    assert_eq!(stall.rows(), rows, "the number stands nowhere: only the entry goes");
    assert_eq!(stall.replies(&reply_of(3, &leaf(kind::STR, str, 8))), (0, 0));
    let eight = || leaf(kind::STR, str, 8);
    assert_eq!(stall.rows(), tuple(pair, &[plain(kind::NATIVE, f, &[eight()]), eight()]));
    let function = plain(kind::NATIVE, f, &[future(str, 3)]);
    assert_eq!(Stall::of(&table, &[(3, str)], 9, &function).runs(0), (Answer::Value, 0, 0));
}

#[test]
fn readings_15_and_17_answers_before_budget_and_a_clean_work_buffer() {
    let mut table = Table::default();
    let str = table.str();
    let locate = table.foreign(&[], str);
    let call = apply(str, leaf(kind::FOREIGN, locate, 1), &[]);
    let open: Vec<(u32, u16)> = (1..=64).map(|number| (number, str)).collect();
    for (rows, open, next, answer) in [
        (leaf(kind::STR, str, 1), &[][..], 1, Answer::Value),
        (future(str, 1), &[(1, str)], 2, Answer::Waiting),
        (call.clone(), &open, 65, Answer::Held),
        (call.clone(), &[], 65_536, Answer::Numbers),
        (call.clone(), &[], 65_535, Answer::Budget),
    ] {
        let mut stall = Stall::of(&table, open, next, &rows);
        assert_eq!(stall.runs(0), (answer, 0, 0));
        assert_eq!(stall.1, vec![0; WORK_BYTES]);
        assert_eq!(stall.rows(), rows);
    }
}

#[test]
fn reading_18_the_record_version_is_a_u16() {
    let mut table = Table::default();
    let str = table.str();
    let mut stall = Stall::of(&table, &[], 1, &leaf(kind::STR, str, 1));
    assert_eq!(stall.runs(1), (Answer::Value, 0, 0));
    stall.0[RECORD_VERSION + 1] = 1;
    let refused = Outcome::Refused(Verdict { refusal: 10, place: 0 });
    assert_eq!(run(&mut stall.0, &mut stall.1, 1), refused);
}

#[test]
fn reading_19_too_many_rows_give_5_whatever_the_length() {
    let mut file = evaluator::compare::small_if();
    put_u16(&mut file, 8, 1_025);
    assert_eq!(loads_file(&file), (5, 0));
    assert_eq!(loads_file(&file[..10]), (5, 0));
}

#[test]
fn reading_16_refusals_of_a_run_are_a_case_of_their_own() {
    let refused = |number| Outcome::Refused(Verdict { refusal: number, place: 0 });
    let mut record = vec![0; RECORD_BYTES];
    assert_eq!(run(&mut record, &mut [0; WORK_BYTES], 1), refused(10));
    assert_eq!(run(&mut record, &mut [0; WORK_BYTES - 1], 1), refused(1));
    assert_eq!(run(&mut record[1..], &mut [0; WORK_BYTES], 1), refused(1));
}

#[test]
fn the_order_of_load_refusals() {
    let good = evaluator::compare::small_if();
    let with = |at: usize, byte: u8| {
        let mut file = good.clone();
        file[at] = byte;
        file
    };
    assert_eq!(load(&good, &mut [0; 5]), Verdict { refusal: 1, place: 0 });
    assert_eq!(loads_file(b"XXX"), (2, 0));
    assert_eq!(loads_file(&with(0, 9)), (3, 0));
    assert_eq!(loads_file(&with(4, 1)), (4, 0));
    assert_eq!(loads_file(&with(5, 1)), (5, 0));
    assert_eq!(loads_file(&with(9, 4)), (5, 0));
    assert_eq!(loads_file(&with(8, 5)), (2, 0));
    assert_eq!(loads_file(&with(10, 0)), (6, 0));
    assert_eq!(loads_file(&with(10 + 36, 1)), (6, 1));
    assert_eq!(loads_file(&with(10 + 72, 20)), (7, 0));
    assert_eq!(loads_file(&with(10 + 72, 13)), (7, 3));
    assert_eq!(loads_file(&with(10 + 72 + 8, 10)), (7, 4));
}
