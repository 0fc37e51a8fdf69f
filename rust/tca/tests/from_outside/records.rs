//! Records of every length, old content and address.

use crate::{document_file, numbers, old_bytes, Judges};
use tca::entries::load;
use tca::RECORD_BYTES;

#[test]
fn a_record_of_another_length_is_refused_before_all_else() {
    for length in [0, 1, 16_400, RECORD_BYTES - 1, RECORD_BYTES + 1, 2 * RECORD_BYTES] {
        let mut judges = Judges::over(old_bytes(length));
        for file in [document_file(), vec![], vec![0; 5], vec![0xFF; 200]] {
            let said = judges.agree(&file, || format!("{} bytes, into a record of {length}", file.len()));
            assert_eq!(said, (1, 0));
        }
    }
}

#[test]
fn an_accepted_load_writes_every_byte() {
    let file = document_file();
    let mut wanted = vec![0; RECORD_BYTES];
    assert_eq!(evaluator::load(&file, &mut wanted).refusal, 0);
    // Each old byte differs from the one to be written.
    let mut record: Vec<u8> = wanted.iter().map(|byte| !byte).collect();
    assert_eq!(numbers(load(&file, &mut record)), (0, 0));
    assert!(record == wanted);
    // What was loaded before does not matter either.
    assert_eq!(numbers(load(&file, &mut record)), (0, 0));
    assert!(record == wanted);
}

/// Buffers at every address, aligned or not, with bytes around them that must stay.
#[test]
fn nothing_outside_the_record_is_touched() {
    const AROUND: usize = 64;
    let file = document_file();
    let mut wanted = vec![0; RECORD_BYTES];
    assert_eq!(evaluator::load(&file, &mut wanted).refusal, 0);
    let old = old_bytes(AROUND + RECORD_BYTES + AROUND);
    for at in 0..AROUND {
        let mut shelf = old.clone();
        let mut moved_file = old_bytes(at);
        moved_file.extend(&file);
        assert_eq!(numbers(load(&moved_file[at..], &mut shelf[at..at + RECORD_BYTES])), (0, 0));
        assert!(shelf[at..at + RECORD_BYTES] == wanted, "the record at {at}");
        assert!(
            shelf[..at] == old[..at] && shelf[at + RECORD_BYTES..] == old[at + RECORD_BYTES..],
            "around it at {at}"
        );

        let mut shelf = old.clone();
        assert_eq!(numbers(load(&file[..100], &mut shelf[at..at + RECORD_BYTES])), (2, 0));
        assert!(shelf == old, "a refusal at {at}");
    }
}
