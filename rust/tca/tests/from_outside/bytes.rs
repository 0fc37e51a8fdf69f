//! Files cut off, drawn out and changed in one byte.

use crate::{document_file, Judges};
use evaluator::compare::small_let;

#[test]
fn the_file_of_document_01_is_accepted() {
    let mut judges = Judges::new();
    assert_eq!(judges.agree(&document_file(), || "the file".to_string()), (0, 0));
}

#[test]
fn no_file_is_refused_for_its_size() {
    let mut judges = Judges::new();
    assert_eq!(judges.agree(&[], || "empty input".to_string()), (2, 0));
}

#[test]
fn every_cut_is_refused() {
    for file in [document_file(), small_let()] {
        let mut judges = Judges::new();
        for length in 0..file.len() {
            let said = judges.agree(&file[..length], || format!("the file cut to {length} bytes"));
            assert_eq!(said, (2, 0));
        }
    }
}

#[test]
fn every_longer_file_is_refused() {
    let mut judges = Judges::new();
    for more in [1, 7, 8, 35, 36, 26_132] {
        let mut file = document_file();
        file.resize(file.len() + more, 0);
        assert_eq!(judges.agree(&file, || format!("the file and {more} zeros")), (2, 0));
    }
}

/// Every value of every byte: each refusal of a load but 1 is met.
#[test]
fn every_changed_byte_is_judged_alike() {
    let mut met = [false; 10];
    for file in [document_file(), small_let()] {
        let mut judges = Judges::new();
        let mut changed = file.clone();
        for at in 0..file.len() {
            for value in 0..=255 {
                changed[at] = value;
                let said = judges.agree(&changed, || format!("the file with byte {at} set to {value}"));
                assert!(value != file[at] || said == (0, 0));
                met[said.0 as usize] = true;
            }
            changed[at] = file[at];
        }
    }
    assert_eq!(met, [true, false, true, true, true, true, true, true, true, true]);
}
