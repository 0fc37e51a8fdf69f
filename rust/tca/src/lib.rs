//! A safe wrapper of the proved library for attachment routines.
//!
//! What is proved is the library behind [`load`] and [`reply`], and behind `run` where it has one (the feature `run`): for all bytes lent to them, their answers and every
//! byte of every buffer are the ones that their statements settle. Around that, this crate only turns buffers into
//! addresses and numbers into words. The library keeps nothing between calls and allocates nothing; a [`Record`] and a
//! [`Work`] buffer are the only memory.
//!
#![cfg_attr(feature = "run", doc = "```")]
#![cfg_attr(not(feature = "run"), doc = "```ignore")]
//! use tca::{Answer, Refusal, Row, Work};
//!
//! // The routine `locate()`: a head, two types (Str, and the foreign function that takes nothing and gives Str) and two
//! // rows (apply, and the foreign function with its tool, 900).
//! let mut file = b"TCA\x01\0\0\x02\0\x02\0".to_vec();
//! for form in [1, 7] {
//!     file.push(form);
//!     file.extend([0; 35]);
//! }
//! file.extend([0x08, 0, 0, 0, 0, 0, 0, 0]);
//! file.extend([0x07, 0, 1, 0, 0x84, 3, 0, 0]);
//!
//! let mut record = tca::load(&file)?;
//! let mut work = Work::new();
//! let ran = tca::run(&mut record, &mut work, 1_000)?;
//! let Answer::Sent(call) = ran.answer else { panic!("it calls locate first") };
//! assert_eq!((call.number, call.tool, call.result, call.rows.len()), (1, 900, 0, 0));
//!
//! // The tool has found string 40. A second reply to the call is refused.
//! let found = Row { kind: 1, n: 0, ty: 0, word: 40 };
//! tca::reply(&mut record, &mut work, &call.reply(&[found]))?;
//! let refused = tca::reply(&mut record, &mut work, &call.reply(&[found])).unwrap_err();
//! assert_eq!(refused.refusal, Refusal::NotOpen);
//!
//! let ran = tca::run(&mut record, &mut work, 1_000)?;
//! assert_eq!((ran.answer, ran.steps), (Answer::Value, 0));
//! assert_eq!(record.rows().collect::<Vec<_>>(), [found]);
//! # Ok::<(), tca::Refused>(())
//! ```

#![warn(missing_docs)]

mod buffers;
pub mod entries;
mod refusals;
mod rows;
mod runs;

pub use buffers::{Open, Record, Work};
pub use refusals::{Refusal, Refused};
pub use rows::{reply_of, Call, Row};
pub use runs::{Answer, Ran};

/// A program file's head: mark, version, a zero byte, type count, row count.
pub const FILE_HEAD_BYTES: usize = 10;
/// A type row of a program file or a record.
pub const TYPE_BYTES: usize = 36;
/// A term row of a program file, a record, a call or a reply.
pub const ROW_BYTES: usize = 8;
/// A program file has 1 to 256 types.
pub const MAX_TYPES: usize = 256;
/// A program file has 1 to 1,024 rows.
pub const MAX_FILE_ROWS: usize = 1_024;
/// The longest program file. A longer one is always refused.
pub const MAX_FILE_BYTES: usize = FILE_HEAD_BYTES + MAX_TYPES * TYPE_BYTES + MAX_FILE_ROWS * ROW_BYTES;
/// A run record is always exactly this long.
pub const RECORD_BYTES: usize = 26_132;
/// A work buffer is always exactly this long.
pub const WORK_BYTES: usize = 16_400;
/// The rows that a record's term may grow to.
pub const MAX_RECORD_ROWS: usize = 2_048;
/// The calls that may be sent and not yet replied to.
pub const MAX_OPEN_CALLS: usize = 64;
/// A reply has 1 to 256 rows.
pub const MAX_REPLY_ROWS: usize = 256;

/// Loads a program file into a fresh record: the file's types and rows, no open call, next call number 1.
///
/// # Errors
///
/// A file that is no well-typed program is refused, [`Refusal::Size`] to [`Refusal::Typing`]: [`Refused`] says why, and at
/// which row.
///
/// # Panics
///
/// The library's statement leaves no other verdict than those. If another comes, the archive that was linked is not the
/// one that this crate was written for, and nothing is known of the record's bytes. That is no refusal that a caller
/// could handle, and must never be taken for an accepted load: the wrapper panics. So do `run` and [`reply`].
pub fn load(file: &[u8]) -> Result<Record, Refused> {
    let mut record = Record::blank();
    let verdict = entries::load(file, record.bytes_mut());
    refusals::outcome(verdict, &[2, 3, 4, 5, 6, 7, 8, 9])?;
    Ok(record)
}

/// Runs a record until it is a value, waits, sends a call, or has made the budget's steps; or stops at a limit. With the
/// feature `run` only.
///
/// After [`Answer::Sent`] the work buffer holds the call and zeros, after other answers only zeros. What it held before
/// does not matter.
///
/// # Errors
///
/// A record that is not sound is refused, [`Refusal::Unsound`], and no byte has changed.
///
/// # Panics
///
/// As [`load`].
#[cfg(feature = "run")]
pub fn run(record: &mut Record, work: &mut Work, budget: u32) -> Result<Ran, Refused> {
    let given = entries::run(record.bytes_mut(), work.bytes_mut(), budget);
    runs::outcome(given, work.as_bytes())
}

/// Takes a reply into a record: its rows replace the call that it answers, which is open no longer.
///
/// Afterwards the work buffer holds only zeros. What it held before does not matter.
///
/// # Errors
///
/// A record that is not sound or a reply that does not fit it is refused, [`Refusal::Unsound`] to [`Refusal::ReplyRoom`]:
/// [`Refused`] says why, and at which row of the reply. No byte has changed.
///
/// # Panics
///
/// As [`load`].
pub fn reply(record: &mut Record, work: &mut Work, reply: &[u8]) -> Result<(), Refused> {
    let verdict = entries::reply(record.bytes_mut(), work.bytes_mut(), reply);
    refusals::outcome(verdict, &[10, 11, 12, 13, 14, 15, 16])
}
