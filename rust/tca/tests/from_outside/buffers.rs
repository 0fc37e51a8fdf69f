//! Records and work buffers of every length, old content and address, lent to run and reply.

use crate::{old_bytes, run, Pair};
use evaluator::compare::small_let;
use evaluator::rows::kind;
use evaluator::table::{leaf, reply_of};
use tca::entries::{reply, RunAnswer, Verdict};
use tca::{RECORD_BYTES, WORK_BYTES};

/// Let p, with call 1 open.
fn waiting() -> Vec<u8> {
    let mut pair = Pair::loaded(&small_let());
    assert_eq!(pair.run(5), (0, 2, 1, 2));
    pair.library[0].clone()
}

fn right_reply() -> Vec<u8> {
    reply_of(1, &leaf(kind::STR, 0, 41))
}

#[test]
fn a_buffer_of_another_length_is_refused_before_all_else() {
    let around = |right: usize| [0, 1, right / 2, right - 1, right, right + 1, 2 * right];
    for record_length in around(RECORD_BYTES) {
        for work_length in around(WORK_BYTES) {
            if (record_length, work_length) == (RECORD_BYTES, WORK_BYTES) {
                continue;
            }
            let mut sound = waiting();
            sound.resize(record_length, 0);
            for record in [sound, old_bytes(record_length)] {
                let mut pair = Pair::over(record, old_bytes(work_length));
                assert_eq!(pair.run(0), (1, 0, 0, 0));
                assert_eq!(pair.run(u32::MAX), (1, 0, 0, 0));
                assert_eq!(pair.reply(&right_reply()), (1, 0));
                assert_eq!(pair.reply(&[]), (1, 0));
            }
        }
    }
}

#[test]
fn the_old_work_does_not_matter() {
    for old in [vec![0; WORK_BYTES], vec![0xFF; WORK_BYTES], old_bytes(WORK_BYTES)] {
        let mut pair = Pair::over(waiting(), old.clone());
        assert_eq!(pair.run(1), (0, 2, 2, 1));
        let mut pair = Pair::over(waiting(), old);
        assert_eq!(pair.reply(&right_reply()), (0, 0));
    }
}

/// Buffers at every address, aligned or not, with bytes around them that must stay.
#[test]
fn nothing_outside_the_buffers_is_touched() {
    const AROUND: usize = 64;
    let mut ran = Pair::of(waiting());
    assert_eq!(ran.run(1), (0, 2, 2, 1));
    let mut replied = Pair::of(waiting());
    assert_eq!(replied.reply(&right_reply()), (0, 0));
    let old = old_bytes(AROUND + RECORD_BYTES + AROUND);
    let old_work = old_bytes(AROUND + WORK_BYTES + AROUND);
    for at in 0..AROUND {
        let shelf = |middle: &[u8], old: &[u8]| [&old[..at], middle, &old[at + middle.len()..]].concat();
        let lend = || (shelf(&waiting(), &old), old_work.clone());
        let (record_at, work_at) = (at..at + RECORD_BYTES, AROUND - at..AROUND - at + WORK_BYTES);
        let work_shelf =
            |middle: &[u8]| [&old_work[..AROUND - at], middle, &old_work[AROUND - at + WORK_BYTES..]].concat();

        let (mut record, mut work) = lend();
        let given = run(&mut record[record_at.clone()], &mut work[work_at.clone()], 1);
        assert_eq!(given, RunAnswer { refusal: 0, answer: 2, sent: 2, steps: 1 });
        assert!(record == shelf(&ran.library[0], &old) && work == work_shelf(&ran.library[1]), "a run at {at}");

        let (mut record, mut work) = lend();
        let moved = [&old[..at], &right_reply()].concat();
        let given = reply(&mut record[record_at], &mut work[work_at], &moved[at..]);
        assert_eq!(given, Verdict { refusal: 0, place: 0 });
        assert!(
            record == shelf(&replied.library[0], &old) && work == work_shelf(&replied.library[1]),
            "a reply at {at}"
        );
    }
}
