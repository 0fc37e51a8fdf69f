//! The C header names the same numbers as this crate.

use std::collections::HashMap;

use tca::Refusal;

/// Every name of include/tca.h that stands for a plain number.
fn header_numbers() -> HashMap<&'static str, usize> {
    let header = include_str!("../../../../include/tca.h");
    let mut numbers = HashMap::new();
    for line in header.lines() {
        let words: Vec<&str> = line.split([' ', ',']).filter(|word| !word.is_empty()).collect();
        let (name, number) = match words[..] {
            ["#define", name, number, ..] | [name, "=", number, ..] => (name, number),
            _ => continue,
        };
        if let Ok(number) = number.parse() {
            assert_eq!(numbers.insert(name, number), None, "{name} stands there twice");
        }
    }
    numbers
}

#[test]
fn the_c_header_has_the_same_limits() {
    let header = header_numbers();
    assert_eq!(header["TCA_FILE_HEAD_BYTES"], tca::FILE_HEAD_BYTES);
    assert_eq!(header["TCA_TYPE_BYTES"], tca::TYPE_BYTES);
    assert_eq!(header["TCA_ROW_BYTES"], tca::ROW_BYTES);
    assert_eq!(header["TCA_MAX_TYPES"], tca::MAX_TYPES);
    assert_eq!(header["TCA_MAX_FILE_ROWS"], tca::MAX_FILE_ROWS);
    assert_eq!(header["TCA_RECORD_BYTES"], tca::RECORD_BYTES);
    assert_eq!(header["TCA_MAX_RECORD_ROWS"], tca::MAX_RECORD_ROWS);
    assert_eq!(header["TCA_MAX_OPEN_CALLS"], tca::MAX_OPEN_CALLS);
    assert_eq!(header["TCA_WORK_BYTES"], tca::WORK_BYTES);
    assert_eq!(header["TCA_MAX_REPLY_ROWS"], tca::MAX_REPLY_ROWS);
    assert_eq!(tca::MAX_FILE_BYTES, 17_418);
}

#[test]
fn the_c_header_has_the_same_answers() {
    use tca::{Answer, Call};
    let header = header_numbers();
    let call = Call { number: 1, tool: 1, result: 0, rows: vec![] };
    let answers = [Answer::Sent(call), Answer::Held, Answer::Budget, Answer::Room, Answer::Numbers];
    for answer in [Answer::Value, Answer::Waiting].into_iter().chain(answers) {
        assert_eq!(header[format!("TCA_{}", answer.name()).as_str()], answer.number() as usize);
    }
}

#[test]
fn the_c_header_has_the_same_refusals() {
    let header = header_numbers();
    assert_eq!(header["TCA_ACCEPTED"], 0);
    for refusal in Refusal::ALL {
        // TypeRow is TCA_TYPE_ROW.
        let name = format!("{refusal:?}").chars().fold("TCA".to_string(), |mut name, letter| {
            if letter.is_uppercase() {
                name.push('_');
            }
            name.push(letter.to_ascii_uppercase());
            name
        });
        assert_eq!(header[name.as_str()], refusal.number() as usize, "{name}");
    }
}

#[test]
fn the_evaluator_has_the_same_limits() {
    use evaluator::layout;
    assert_eq!(layout::FILE_HEAD, tca::FILE_HEAD_BYTES);
    assert_eq!(layout::TYPE_BYTES, tca::TYPE_BYTES);
    assert_eq!(layout::ROW_BYTES, tca::ROW_BYTES);
    assert_eq!(layout::MAX_TYPES, tca::MAX_TYPES);
    assert_eq!(layout::MAX_PROGRAM_ROWS, tca::MAX_FILE_ROWS);
    assert_eq!(layout::RECORD_BYTES, tca::RECORD_BYTES);
    assert_eq!(layout::MAX_ROWS, tca::MAX_RECORD_ROWS);
    assert_eq!(layout::MAX_OPEN, tca::MAX_OPEN_CALLS);
    assert_eq!(layout::WORK_BYTES, tca::WORK_BYTES);
    assert_eq!(layout::MAX_REPLY_ROWS, tca::MAX_REPLY_ROWS);
    assert_eq!(layout::RECORD_ROWS, header_numbers()["TCA_RECORD_ROWS"]);
    assert_eq!(layout::RECORD_ROW_COUNT, header_numbers()["TCA_RECORD_ROW_COUNT"]);
    assert_eq!(layout::REPLY_HEAD, header_numbers()["TCA_REPLY_HEAD_BYTES"]);
    assert_eq!(layout::CALL_HEAD, header_numbers()["TCA_CALL_HEAD_BYTES"]);
}
