//! Files that a load without care would take for ever to judge. The right answers are worked out by hand.

use std::sync::mpsc::channel;
use std::time::Duration;

use crate::{numbers, Judges};
use evaluator::rows::{kind, Row};
use evaluator::table::{file_of, Table};
use tca::entries::load;
use tca::RECORD_BYTES;

/// The library's verdict, if it comes soon.
fn soon(file: Vec<u8>) -> (u32, u32) {
    let (send, receive) = channel();
    std::thread::spawn(move || send.send(numbers(load(&file, &mut vec![0; RECORD_BYTES]))));
    receive.recv_timeout(Duration::from_secs(10)).expect("a load is judged at once")
}

/// A table of 256 types: what the chain begins with, each next type the tuple of eight times the one before, and last a
/// foreign function that takes the topmost and gives it. Its only row is that function.
fn chain(begin: impl Fn(&mut Table) -> u16) -> Vec<u8> {
    let mut table = Table::default();
    let mut top = begin(&mut table);
    while table.rows.len() < 255 {
        top = table.tuple(&[top; 8]);
    }
    let function = table.foreign(&[(1, top)], top);
    file_of(&table.rows, &[Row { kind: kind::FOREIGN, n: 0, ty: function, word: 1 }])
}

/// Going down through every part anew would look at eight to the power of 254 types.
#[test]
fn a_deep_chain_of_ground_types_is_accepted_at_once() {
    let file = chain(Table::str);
    assert_eq!(soon(file.clone()), (0, 0));
    assert_eq!(Judges::new().agree(&file, || "the chain".to_string()), (0, 0));
}

/// The foreign function, type 255, may not take what is not ground.
#[test]
fn a_deep_chain_over_a_function_is_refused_at_once() {
    let file = chain(|table| {
        let str = table.str();
        table.native(&[], str)
    });
    assert_eq!(soon(file.clone()), (6, 255));
    assert_eq!(Judges::new().agree(&file, || "the chain".to_string()), (6, 255));
}

/// The same where only the last of eight parts leads down to the function, so that all ground ones are looked at before
/// it.
#[test]
fn a_deep_chain_whose_last_part_is_no_ground_type_is_refused_at_once() {
    let file = {
        let mut table = Table::default();
        let mut ground = table.str();
        let mut top = table.native(&[], ground);
        while table.rows.len() < 254 {
            ground = table.tuple(&[ground; 8]);
            top = table.tuple(&[ground, ground, ground, ground, ground, ground, ground, top]);
        }
        let function = table.foreign(&[], top);
        file_of(&table.rows, &[Row { kind: kind::FOREIGN, n: 0, ty: function, word: 1 }])
    };
    assert_eq!(soon(file.clone()), (6, 254));
    assert_eq!(Judges::new().agree(&file, || "the chain".to_string()), (6, 254));
}
