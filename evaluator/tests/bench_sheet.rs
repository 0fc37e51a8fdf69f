//! The whole bench sheet of document 01: every expected number stands there, none comes from the evaluator.

use evaluator::bench_runner::bench_line;
use evaluator::layout::*;
use evaluator::rows::{decode_rows, kind, Row};
use evaluator::table::*;
use evaluator::{load, reply, run, Answer, Outcome, Verdict};

const P: u16 = 7;
const LOCATE: u32 = 900;

/// A stall: a record and a work buffer, with the sheet's way of speaking.
struct Stall {
    record: Vec<u8>,
    work: Vec<u8>,
}

impl Stall {
    fn loaded(table: &Table, rows: &[Row]) -> Stall {
        let mut stall = Stall { record: vec![0xA5; RECORD_BYTES], work: vec![0x5A; WORK_BYTES] };
        assert_eq!(load(&file_of(&table.rows, rows), &mut stall.record), Verdict::ACCEPTED);
        stall
    }

    /// Runs and asserts answer, sent number and steps; looks at the work buffer too.
    fn runs(&mut self, budget: u32, answer: Answer, sent: u32, steps: u32) {
        let outcome = run(&mut self.record, &mut self.work, budget);
        assert_eq!(outcome, Outcome::Ran { answer, sent, steps });
        if sent == 0 {
            assert!(all_zero(&self.work), "only zeros after every answer but SENT");
        } else {
            assert_eq!(u32_at(&self.work, 0), sent);
        }
    }

    fn replies(&mut self, number: u32, rows: &[Row]) -> (u32, u32) {
        let before = (self.record.clone(), self.work.clone());
        let verdict = reply(&mut self.record, &mut self.work, &reply_of(number, rows));
        if verdict.refusal == 0 {
            assert!(all_zero(&self.work));
        } else {
            assert!(before == (self.record.clone(), self.work.clone()), "a refusal changes no byte");
        }
        (verdict.refusal, verdict.place)
    }

    fn rows(&self) -> Vec<Row> {
        let count = usize::from(u16_at(&self.record, RECORD_ROW_COUNT));
        decode_rows(&self.record[RECORD_ROWS..RECORD_ROWS + count * ROW_BYTES])
    }

    fn open_numbers(&self) -> Vec<u32> {
        let count = usize::from(u16_at(&self.record, RECORD_OPEN_COUNT));
        (0..count).map(|k| u32_at(&self.record, RECORD_OPEN + k * ENTRY_BYTES)).collect()
    }
}

/// `locate` takes nothing and gives Str: an application of it.
fn locate(table: &mut Table) -> Vec<Row> {
    let str = table.str();
    let function = table.foreign(&[], str);
    apply(str, leaf(kind::FOREIGN, function, LOCATE), &[])
}

fn str_row(ty: u16, word: u32) -> Vec<Row> {
    leaf(kind::STR, ty, word)
}

fn truths(table: &mut Table, values: &[bool]) -> Vec<Row> {
    let bool = table.bool();
    let ty = table.list(bool);
    let elements: Vec<_> =
        values.iter().map(|&value| leaf(if value { kind::TRUE } else { kind::FALSE }, bool, 0)).collect();
    list(ty, &elements)
}

/// The sheet's first case, byte for byte.
fn first_case() -> Vec<u8> {
    let mut file = vec![0x54, 0x43, 0x41, 0x01, 0x00, 0x00, 0x02, 0x00, 0x04, 0x00];
    file.push(0x01);
    file.extend([0; 35]);
    file.push(0x03);
    file.extend([0; 35]);
    file.extend([0x0A, 0x00, 0x00, 0x00, 0x00, 0x00, 0x00, 0x00]);
    file.extend([0x03, 0x00, 0x01, 0x00, 0x00, 0x00, 0x00, 0x00]);
    file.extend([0x01, 0x00, 0x00, 0x00, 0x07, 0x00, 0x00, 0x00]);
    file.extend([0x01, 0x00, 0x00, 0x00, 0x08, 0x00, 0x00, 0x00]);
    file
}

#[test]
fn the_bench_runner_reads_the_first_case_and_the_empty_input() {
    assert_eq!(first_case().len(), 114);
    assert_eq!(bench_line(&first_case()), "0 1 1");
    assert_eq!(bench_line(&[]), "refused 2 0");
}

#[test]
fn if_true_then_str_7_else_str_8() {
    let mut stall = Stall { record: vec![0; RECORD_BYTES], work: vec![0; WORK_BYTES] };
    assert_eq!(load(&first_case(), &mut stall.record), Verdict::ACCEPTED);
    let fresh = stall.record.clone();
    stall.runs(0, Answer::Budget, 0, 0);
    assert_eq!(stall.record, fresh);
    stall.runs(1_000, Answer::Value, 0, 1);
    assert_eq!(stall.rows(), str_row(0, 7));
}

fn let_p_in_pair() -> (Table, Vec<Row>) {
    let mut table = Table::default();
    let str = table.str();
    table.bool();
    let bound = locate(&mut table);
    let pair = table.tuple(&[str, str]);
    let p = leaf(kind::VARIABLE, str, u32::from(P));
    let rows = let_in(pair, P, bound, tuple(pair, &[p.clone(), p]));
    (table, rows)
}

#[test]
fn let_p_be_locate_in_a_pair_sends_twice() {
    let (mut table, rows) = let_p_in_pair();
    let (str, bool) = (table.str(), table.bool());
    let pair = table.tuple(&[str, str]);
    assert_eq!(rows.len(), 6);
    let mut stall = Stall::loaded(&table, &rows);
    stall.runs(1, Answer::Budget, 0, 1);
    assert_eq!(stall.rows().len(), 5);
    stall.runs(1_000, Answer::Sent, 1, 1);
    assert_eq!(stall.work[..CALL_HEAD], [1, 0, 0, 0, 0x84, 3, 0, 0, 0, 0, 0, 0], "number 1, tool 900, no rows, Str");
    assert!(all_zero(&stall.work[CALL_HEAD..]));
    // A Bool for 1 while open, Bool being in the type table: 15, place 0.
    assert_eq!(stall.replies(1, &leaf(kind::TRUE, bool, 0)), (15, 0));
    stall.runs(1_000, Answer::Sent, 2, 1);
    stall.runs(1_000, Answer::Waiting, 0, 0);
    assert_eq!(stall.rows().len(), 3);
    assert_eq!(stall.open_numbers(), [1, 2]);
    assert_eq!(stall.replies(2, &str_row(str, 41)), (0, 0));
    assert_eq!(stall.open_numbers(), [1]);
    assert_eq!(stall.replies(1, &str_row(str, 40)), (0, 0));
    assert_eq!(stall.replies(1, &str_row(str, 40)), (12, 0));
    stall.runs(1_000, Answer::Value, 0, 0);
    assert_eq!(stall.rows(), tuple(pair, &[str_row(str, 40), str_row(str, 41)]));
}

/// zip of (if a then b else false) over a, b.
fn zip_of_and(table: &mut Table, first: &[bool], second: &[bool]) -> Vec<Row> {
    let bool = table.bool();
    let bools = table.list(bool);
    let inner = table.native(&[(1, bool), (2, bool)], bool);
    let outer = table.native(&[(1, bools), (2, bools)], bools);
    let condition = leaf(kind::VARIABLE, bool, 1);
    let then = leaf(kind::VARIABLE, bool, 2);
    let body = plain(kind::IF, bool, &[condition, then, leaf(kind::FALSE, bool, 0)]);
    let zip = counted(kind::ZIP, 3, outer, plain(kind::NATIVE, inner, &[body]));
    let lists = [truths(table, first), truths(table, second)];
    apply(bools, zip, &lists)
}

#[test]
fn zip_over_two_lists_of_two() {
    let mut table = Table::default();
    let rows = zip_of_and(&mut table, &[true, false], &[true, true]);
    assert_eq!(rows.len(), 17);
    let mut stall = Stall::loaded(&table, &rows);
    stall.runs(1, Answer::Budget, 0, 1);
    assert_eq!(stall.rows().len(), 22);
    stall.runs(1_000, Answer::Value, 0, 6);
    assert_eq!(stall.rows(), truths(&mut table, &[true, false]));
    let mut whole = Stall::loaded(&table, &rows);
    whole.runs(1_000, Answer::Value, 0, 7);
    assert_eq!(whole.record, stall.record);
}

#[test]
fn zip_over_lists_of_two_and_one() {
    let mut table = Table::default();
    let rows = zip_of_and(&mut table, &[true, true], &[true]);
    let mut stall = Stall::loaded(&table, &rows);
    stall.runs(1_000, Answer::Value, 0, 4);
    assert_eq!(stall.rows(), truths(&mut table, &[true]));
}

#[test]
fn isnil_of_cons_locate_nil() {
    let mut table = Table::default();
    let (str, bool) = (table.str(), table.bool());
    let strs = table.list(str);
    let call = locate(&mut table);
    let rows = plain(kind::ISNIL, bool, &[list(strs, &[call])]);
    let mut stall = Stall::loaded(&table, &rows);
    stall.runs(1_000, Answer::Value, 0, 1);
    assert_eq!(stall.rows(), leaf(kind::FALSE, bool, 0));
    assert_eq!(stall.open_numbers(), []);
}

#[test]
fn second_of_locate_and_str_3() {
    let mut table = Table::default();
    let str = table.str();
    let pair = table.tuple(&[str, str]);
    let call = locate(&mut table);
    let rows = counted(kind::PROJECT, 2, str, tuple(pair, &[call, str_row(str, 3)]));
    let mut stall = Stall::loaded(&table, &rows);
    stall.runs(1_000, Answer::Value, 0, 1);
    assert_eq!(stall.rows(), str_row(str, 3));
    assert_eq!(stall.open_numbers(), []);
}

#[test]
fn list_project_of_nil() {
    let mut table = Table::default();
    let str = table.str();
    let bool = table.bool();
    let pair = table.tuple(&[str, bool]);
    let (pairs, bools) = (table.list(pair), table.list(bool));
    let rows = counted(kind::LIST_PROJECT, 2, bools, leaf(kind::NIL, pairs, 0));
    let mut stall = Stall::loaded(&table, &rows);
    stall.runs(1_000, Answer::Value, 0, 1);
    assert_eq!(stall.rows(), leaf(kind::NIL, bools, 0));
}

#[test]
fn fix_of_a_function_that_calls_itself() {
    let mut table = Table::default();
    let str = table.str();
    let f = table.native(&[], str);
    let star = table.native(&[(5, f)], str);
    let body = apply(str, leaf(kind::VARIABLE, f, 5), &[]);
    let fix = plain(kind::FIX, f, &[plain(kind::NATIVE, star, &[body])]);
    let rows = apply(str, fix, &[]);
    assert_eq!(rows.len(), 5);
    let mut stall = Stall::loaded(&table, &rows);
    stall.runs(1, Answer::Budget, 0, 1);
    assert_eq!(stall.rows().len(), 7);
    stall.runs(1, Answer::Budget, 0, 1);
    assert_eq!(stall.rows(), rows);
    let mut stall = Stall::loaded(&table, &rows);
    stall.runs(10, Answer::Budget, 0, 10);
    assert_eq!(stall.rows().len(), 5);
}

#[test]
fn let_x_true_in_let_x_false_in_x() {
    let mut table = Table::default();
    let bool = table.bool();
    let x = leaf(kind::VARIABLE, bool, 3);
    let inner = let_in(bool, 3, leaf(kind::FALSE, bool, 0), x);
    let rows = let_in(bool, 3, leaf(kind::TRUE, bool, 0), inner);
    let mut stall = Stall::loaded(&table, &rows);
    stall.runs(1_000, Answer::Value, 0, 2);
    assert_eq!(stall.rows(), leaf(kind::FALSE, bool, 0));
}

#[test]
fn limits_1024_program_rows_load_and_1025_give_5() {
    let mut table = Table::default();
    let bool = table.bool();
    let bools = table.list(bool);
    let one = table.tuple(&[bools]);
    let most = tuple(one, &[truths(&mut table, &[true; 511])]);
    assert_eq!(most.len(), 1_024);
    let mut stall = Stall::loaded(&table, &most);
    stall.runs(1_000, Answer::Value, 0, 0);
    let over_limit = truths(&mut table, &[true; 512]);
    assert_eq!(over_limit.len(), 1_025);
    let mut file = file_of(&table.rows, &over_limit);
    let before = stall.record.clone();
    assert_eq!(load(&file, &mut stall.record), Verdict { refusal: 5, place: 0 });
    file.truncate(10);
    assert_eq!(load(&file, &mut stall.record), Verdict { refusal: 5, place: 0 });
    assert_eq!(stall.record, before);
}

/// let x = (682 rows) in a tuple of x three times and of some strings: the next term has 2,047 rows and one a string.
fn nearly_too_big(strings: usize) -> (Table, Vec<Row>) {
    let mut table = Table::default();
    let (str, bool) = (table.str(), table.bool());
    let bools = table.list(bool);
    let mut elements = vec![leaf(kind::TRUE, bool, 0); 339];
    elements.push(plain(kind::ISNIL, bool, &[leaf(kind::NIL, bools, 0)]));
    let bound = list(bools, &elements);
    assert_eq!(bound.len(), 682);
    let mut types = vec![bools; 3];
    types.extend(vec![str; strings]);
    let ty = table.tuple(&types);
    let mut parts = vec![leaf(kind::VARIABLE, bools, 9); 3];
    parts.extend(vec![str_row(str, 1); strings]);
    let rows = let_in(ty, 9, bound, tuple(ty, &parts));
    (table, rows)
}

#[test]
fn limits_a_next_term_of_2048_rows_steps_and_2049_is_room() {
    let (table, rows) = nearly_too_big(1);
    let mut stall = Stall::loaded(&table, &rows);
    stall.runs(1, Answer::Budget, 0, 1);
    assert_eq!(stall.rows().len(), 2_048);
    stall.runs(1_000, Answer::Value, 0, 3);
    assert_eq!(stall.rows().len(), 2_045);

    let (table, rows) = nearly_too_big(2);
    let mut stall = Stall::loaded(&table, &rows);
    stall.runs(0, Answer::Room, 0, 0);
    stall.runs(1_000, Answer::Room, 0, 0);
    assert_eq!(stall.rows(), rows);
}

#[test]
fn limits_the_65th_send_is_held() {
    let mut table = Table::default();
    let str = table.str();
    let strs = table.list(str);
    let call = locate(&mut table);
    let rows = list(strs, &vec![call; 65]);
    let mut stall = Stall::loaded(&table, &rows);
    for number in 1..=64 {
        stall.runs(1_000, Answer::Sent, number, 1);
    }
    stall.runs(0, Answer::Held, 0, 0);
    stall.runs(1_000, Answer::Held, 0, 0);
    assert_eq!(stall.replies(30, &str_row(str, 5)), (0, 0));
    stall.runs(1_000, Answer::Sent, 65, 1);
    stall.runs(1_000, Answer::Waiting, 0, 0);
}

#[test]
fn limits_number_65535_is_sent_then_numbers() {
    let (table, rows) = let_p_in_pair();
    let mut stall = Stall::loaded(&table, &rows);
    put_u32(&mut stall.record, RECORD_NEXT, 65_535);
    stall.runs(1_000, Answer::Sent, 65_535, 2);
    assert_eq!(u32_at(&stall.record, RECORD_NEXT), 65_536);
    stall.runs(0, Answer::Numbers, 0, 0);
    stall.runs(1_000, Answer::Numbers, 0, 0);
}

#[test]
fn limits_256_reply_rows_pass_and_257_give_11() {
    let mut table = Table::default();
    let bool = table.bool();
    let bools = table.list(bool);
    let one = table.tuple(&[bools]);
    let function = table.foreign(&[], one);
    let rows = apply(one, leaf(kind::FOREIGN, function, 1), &[]);
    let mut stall = Stall::loaded(&table, &rows);
    stall.runs(1_000, Answer::Sent, 1, 1);
    let answer = tuple(one, &[truths(&mut table, &[true; 127])]);
    assert_eq!(answer.len(), 256);
    let over_limit = truths(&mut table, &[true; 128]);
    assert_eq!(over_limit.len(), 257);
    assert_eq!(stall.replies(1, &over_limit), (11, 0));
    assert_eq!(stall.replies(1, &answer), (0, 0));
    stall.runs(1_000, Answer::Value, 0, 0);
    assert_eq!(stall.rows(), answer);
}

#[test]
fn errors_that_look_right_a_list_whose_tail_is_of_another_type() {
    let mut table = Table::default();
    let (str, bool) = (table.str(), table.bool());
    let (strs, bools) = (table.list(str), table.list(bool));
    let function = table.foreign(&[], strs);
    let rows = apply(strs, leaf(kind::FOREIGN, function, 1), &[]);
    let mut stall = Stall::loaded(&table, &rows);
    stall.runs(1_000, Answer::Sent, 1, 1);
    let wrong_tail = plain(kind::CONS, strs, &[str_row(str, 1), leaf(kind::NIL, bools, 0)]);
    assert_eq!(stall.replies(1, &wrong_tail), (15, 0));
    let wrong_deeper = plain(kind::CONS, strs, &[str_row(str, 1), wrong_tail]);
    assert_eq!(stall.replies(1, &wrong_deeper), (15, 2));
    assert_eq!(stall.replies(1, &list(strs, &[str_row(str, 1)])), (0, 0));
}
