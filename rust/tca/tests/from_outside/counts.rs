//! Counts at and beyond their limits, in the head alone and in full.

use crate::{document_file, Judges};
use evaluator::layout::put_u16;
use evaluator::rows::{kind, Row};
use evaluator::table::file_of;
use evaluator::types::{TypeRow, BOOL};

const TYPES: [u16; 5] = [0, 1, 256, 257, 65_535];
const ROWS: [u16; 5] = [0, 1, 1_024, 1_025, 65_535];

fn within(types: u16, rows: u16) -> bool {
    (1..=256).contains(&types) && (1..=1_024).contains(&rows)
}

/// A file of so many types and rows: Bool and lists around it; one truth, or ifs nested in their conditions.
fn full_file(types: u16, rows: u16) -> Vec<u8> {
    let lists_around = (0..types).map(|number| match number.checked_sub(1) {
        None => TypeRow::plain(BOOL),
        Some(element) => TypeRow::list(element),
    });
    let row = |kind| Row { kind, n: 0, ty: 0, word: 0 };
    let ifs = rows.saturating_sub(1) / 3;
    let mut made = vec![row(kind::IF); usize::from(ifs)];
    made.resize(usize::from(rows), row(kind::TRUE));
    file_of(&lists_around.collect::<Vec<_>>(), &made)
}

#[test]
fn full_files_are_accepted_up_to_the_limits() {
    let mut judges = Judges::new();
    for types in TYPES {
        for rows in ROWS {
            let said = judges.agree(&full_file(types, rows), || format!("{types} types and {rows} rows in full"));
            assert_eq!(said, if within(types, rows) { (0, 0) } else { (5, 0) }, "{types} types and {rows} rows");
        }
    }
}

#[test]
fn claimed_counts_are_refused() {
    let mut judges = Judges::new();
    for types in TYPES {
        for rows in ROWS {
            let mut file = document_file();
            put_u16(&mut file, 6, types);
            put_u16(&mut file, 8, rows);
            let said = judges.agree(&file, || format!("{types} types and {rows} rows claimed"));
            assert_eq!(said, if within(types, rows) { (2, 0) } else { (5, 0) }, "{types} types and {rows} rows");
        }
    }
}
