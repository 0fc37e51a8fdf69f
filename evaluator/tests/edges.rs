//! Bytes of any kind, and the deepest terms: nothing panics.

use evaluator::layout::*;
use evaluator::make::records::written;
use evaluator::random::Random;
use evaluator::record::Entry;
use evaluator::rows::{kind, Row};
use evaluator::table::*;
use evaluator::{load, reply, run, Answer, Outcome, Verdict};

#[test]
fn any_bytes_of_any_length_get_an_answer() {
    let mut random = Random::new(8);
    for number in 0..3_000 {
        let mut file = vec![0; random.below(300)];
        random.fill(&mut file);
        for (at, byte) in b"TCA\x01\x00\x00".iter().enumerate() {
            if number % 2 == 0 && at < file.len() {
                file[at] = *byte;
            }
        }
        let length = *random.pick(&[0, 5, RECORD_BYTES, RECORD_BYTES, RECORD_BYTES + 1]);
        let mut record = vec![0; length];
        random.fill(&mut record);
        let mut work = vec![0; *random.pick(&[0, WORK_BYTES, WORK_BYTES, WORK_BYTES - 1])];
        random.fill(&mut work);
        let before = (record.clone(), work.clone());
        assert!(load(&file, &mut record).refusal > 0);
        assert!(matches!(run(&mut record, &mut work, number), Outcome::Refused(_)));
        assert!(reply(&mut record, &mut work, &file).refusal > 0);
        assert!(before == (record, work));
    }
}

/// 2,048 rows, each the only child of the one before but for the last: project 1 of {project 1 of {...}}.
fn deepest() -> Vec<u8> {
    let mut table = Table::default();
    let str = table.str();
    let one = table.tuple(&[str]);
    let mut rows = Vec::new();
    while rows.len() < MAX_ROWS - 2 {
        rows.push(Row { kind: kind::PROJECT, n: 1, ty: str, word: 0 });
        rows.push(Row { kind: kind::TUPLE, n: 1, ty: one, word: 0 });
    }
    rows.push(Row { kind: kind::PROJECT, n: 1, ty: str, word: 0 });
    rows.push(Row { kind: kind::FUTURE, n: 0, ty: one, word: 1 });
    written(&table.rows, &[Entry { number: 1, ty: one }], 2, str, &rows)
}

#[test]
fn the_deepest_terms_run_on_any_thread() {
    let mut record = deepest();
    let mut work = vec![0; WORK_BYTES];
    assert_eq!(run(&mut record, &mut work, 5_000), Outcome::Ran { answer: Answer::Waiting, sent: 0, steps: 1_023 });
    let mut record = deepest();
    let answer = reply_of(1, &tuple(1, &[leaf(kind::STR, 0, 9)]));
    assert_eq!(reply(&mut record, &mut work, &answer), Verdict { refusal: 16, place: 0 });
    assert_eq!(run(&mut record, &mut work, 1_000), Outcome::Ran { answer: Answer::Budget, sent: 0, steps: 1_000 });
    assert_eq!(reply(&mut record, &mut work, &answer), Verdict::ACCEPTED);
    assert_eq!(run(&mut record, &mut work, 1_000), Outcome::Ran { answer: Answer::Value, sent: 0, steps: 24 });
}
