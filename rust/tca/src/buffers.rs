//! The two buffers that are lent to the library, each of its one right length.

use std::fmt;

use crate::refusals::{Refusal, Refused};
use crate::rows::{rows_of, Row};
use crate::{MAX_OPEN_CALLS, MAX_RECORD_ROWS, MAX_TYPES, RECORD_BYTES, ROW_BYTES, TYPE_BYTES, WORK_BYTES};

/// The record's parts, in order: a head, the type rows, the open calls, the term rows.
const HEAD_BYTES: usize = 20;
const OPEN_BYTES: usize = 8;
const OPEN_AT: usize = HEAD_BYTES + MAX_TYPES * TYPE_BYTES;
const ROWS_AT: usize = OPEN_AT + MAX_OPEN_CALLS * OPEN_BYTES;
const _: () = assert!(ROWS_AT + MAX_RECORD_ROWS * ROW_BYTES == RECORD_BYTES);

/// The head's counts, by offset.
const ROW_COUNT_AT: usize = 8;
const OPEN_COUNT_AT: usize = 10;

/// Zeros of a buffer's length, on the heap from the start.
fn zeros<const LENGTH: usize>() -> Box<[u8; LENGTH]> {
    vec![0; LENGTH].into_boxed_slice().try_into().expect("a vector of this length")
}

/// A copy of the bytes, if they have a buffer's length. Others the library would refuse, as is done here.
fn copied<const LENGTH: usize>(bytes: &[u8]) -> Result<Box<[u8; LENGTH]>, Refused> {
    let bytes: Box<[u8]> = bytes.into();
    bytes.try_into().map_err(|_| Refused { refusal: Refusal::Length, place: 0 })
}

/// A run record: what is kept of a routine between calls. It is [`RECORD_BYTES`] long, whatever those bytes are: whether
/// it is sound the library finds out at each run and reply.
#[derive(Clone, PartialEq, Eq)]
pub struct Record(Box<[u8; RECORD_BYTES]>);

/// A call that has been sent and not yet replied to.
#[derive(Clone, Copy, Debug, PartialEq, Eq, Hash)]
pub struct Open {
    /// Its number.
    pub number: u32,
    /// The type that its reply must have, by its number in the type table.
    pub ty: u16,
}

impl Record {
    /// What a load writes over.
    pub(crate) fn blank() -> Record {
        Record(zeros())
    }

    /// A kept record again.
    ///
    /// # Errors
    ///
    /// Bytes of another length than [`RECORD_BYTES`] are refused with [`Refusal::Length`].
    pub fn from_bytes(bytes: &[u8]) -> Result<Record, Refused> {
        copied(bytes).map(Record)
    }

    /// The record's bytes, to be kept.
    pub fn as_bytes(&self) -> &[u8; RECORD_BYTES] {
        &self.0
    }

    pub(crate) fn bytes_mut(&mut self) -> &mut [u8; RECORD_BYTES] {
        &mut self.0
    }

    /// The rows that the term has come to, as many as the head counts (of a record that is not sound, at most as many as
    /// there is room for).
    pub fn rows(&self) -> impl Iterator<Item = Row> + '_ {
        rows_of(&self.0[ROWS_AT..]).take(self.count_at(ROW_COUNT_AT))
    }

    /// The open calls, as many as the head counts (of a record that is not sound, at most as many as there is room for).
    pub fn open_calls(&self) -> impl Iterator<Item = Open> + '_ {
        let entries = rows_of(&self.0[OPEN_AT..ROWS_AT]).map(|row| row.to_bytes());
        let read = |[a, b, c, d, low, high, _, _]: [u8; OPEN_BYTES]| Open {
            number: u32::from_le_bytes([a, b, c, d]),
            ty: u16::from_le_bytes([low, high]),
        };
        entries.map(read).take(self.count_at(OPEN_COUNT_AT))
    }

    fn count_at(&self, at: usize) -> usize {
        usize::from(u16::from_le_bytes([self.0[at], self.0[at + 1]]))
    }
}

impl fmt::Debug for Record {
    fn fmt(&self, f: &mut fmt::Formatter) -> fmt::Result {
        let open: Vec<Open> = self.open_calls().collect();
        f.debug_struct("Record").field("rows", &self.rows().count()).field("open_calls", &open).finish_non_exhaustive()
    }
}

/// A work buffer, lent to run and reply. One will do for any number of records. After a call was sent it holds that call
/// and zeros.
#[derive(Clone, PartialEq, Eq)]
pub struct Work(Box<[u8; WORK_BYTES]>);

impl Work {
    /// A work buffer of zeros.
    pub fn new() -> Work {
        Work(zeros())
    }

    /// A work buffer of any old content.
    ///
    /// # Errors
    ///
    /// Bytes of another length than [`WORK_BYTES`] are refused with [`Refusal::Length`].
    pub fn from_bytes(bytes: &[u8]) -> Result<Work, Refused> {
        copied(bytes).map(Work)
    }

    /// The work buffer's bytes.
    pub fn as_bytes(&self) -> &[u8; WORK_BYTES] {
        &self.0
    }

    pub(crate) fn bytes_mut(&mut self) -> &mut [u8; WORK_BYTES] {
        &mut self.0
    }
}

impl Default for Work {
    fn default() -> Work {
        Work::new()
    }
}

impl fmt::Debug for Work {
    fn fmt(&self, f: &mut fmt::Formatter) -> fmt::Result {
        f.debug_struct("Work").finish_non_exhaustive()
    }
}

#[cfg(test)]
mod tests {
    use super::*;

    #[test]
    fn bytes_of_the_right_length_come_back() {
        let bytes: Vec<u8> = (0..RECORD_BYTES).map(|at| (at % 251) as u8).collect();
        assert!(Record::from_bytes(&bytes).unwrap().as_bytes()[..] == bytes);
        let bytes = &bytes[..WORK_BYTES];
        assert!(Work::from_bytes(bytes).unwrap().as_bytes()[..] == *bytes);
        assert!(Work::new().as_bytes().iter().all(|&byte| byte == 0));
    }

    #[test]
    fn bytes_of_another_length_are_refused() {
        let length = Err(Refused { refusal: Refusal::Length, place: 0 });
        let bytes = vec![0; 2 * RECORD_BYTES];
        for other in [0, 1, WORK_BYTES, RECORD_BYTES - 1, RECORD_BYTES + 1, 2 * RECORD_BYTES] {
            assert_eq!(Record::from_bytes(&bytes[..other]), length);
        }
        let length = Err(Refused { refusal: Refusal::Length, place: 0 });
        for other in [0, 1, WORK_BYTES - 1, WORK_BYTES + 1, RECORD_BYTES] {
            assert_eq!(Work::from_bytes(&bytes[..other]), length);
        }
    }

    #[test]
    fn no_count_of_an_unsound_record_leads_outside() {
        let record = Record::from_bytes(&[0xFF; RECORD_BYTES]).unwrap();
        assert_eq!((record.rows().count(), record.open_calls().count()), (MAX_RECORD_ROWS, MAX_OPEN_CALLS));
        assert_eq!(record.open_calls().last(), Some(Open { number: u32::MAX, ty: u16::MAX }));
    }
}
