//! Refusals: their numbers, their places, and what they mean in words.

use std::fmt;

use crate::entries::Verdict;

/// Why a call is refused. The numbers are those of include/tca.h.
#[derive(Clone, Copy, Debug, PartialEq, Eq, Hash)]
pub enum Refusal {
    /// The record or the work buffer is of another length than it must be.
    Length = 1,
    /// The file has under [`FILE_HEAD_BYTES`](crate::FILE_HEAD_BYTES) bytes, or not the length that its counts need.
    Size = 2,
    /// The file does not begin with the letters TCA.
    Mark = 3,
    /// The file's version is not 1.
    Version = 4,
    /// The head's zero byte is not zero, or a count is 0 or over its limit.
    Count = 5,
    /// A bad type row; its place is counted among the type rows.
    TypeRow = 6,
    /// A row of bad kind, field or type number, or behind the tree's end. If the tree is unfinished, the place is the
    /// row count.
    Row = 7,
    /// A future, which no program may hold.
    Future = 8,
    /// A row that fails typing.
    Typing = 9,
    /// The record is not sound.
    Unsound = 10,
    /// The reply's head or length.
    Header = 11,
    /// The reply's number is not that of an open call.
    NotOpen = 12,
    /// A reply row, as [`Refusal::Row`].
    ReplyRow = 13,
    /// A reply row of a kind that no reply may hold.
    ReplyKind = 14,
    /// A reply row that fails typing, or a reply of another type than its call's.
    ReplyTyping = 15,
    /// The term would pass [`MAX_RECORD_ROWS`](crate::MAX_RECORD_ROWS) rows.
    ReplyRoom = 16,
}

impl Refusal {
    /// Every refusal, by rising number.
    pub const ALL: [Refusal; 16] = [
        Refusal::Length,
        Refusal::Size,
        Refusal::Mark,
        Refusal::Version,
        Refusal::Count,
        Refusal::TypeRow,
        Refusal::Row,
        Refusal::Future,
        Refusal::Typing,
        Refusal::Unsound,
        Refusal::Header,
        Refusal::NotOpen,
        Refusal::ReplyRow,
        Refusal::ReplyKind,
        Refusal::ReplyTyping,
        Refusal::ReplyRoom,
    ];

    /// The number by which documents and C programs know the refusal.
    pub fn number(self) -> u32 {
        self as u32
    }

    /// What the place of the refusal counts, if it names one.
    fn counted(self) -> Option<&'static str> {
        match self {
            Refusal::TypeRow => Some("type row"),
            Refusal::Row | Refusal::Future | Refusal::Typing => Some("row"),
            Refusal::ReplyRow | Refusal::ReplyKind | Refusal::ReplyTyping => Some("reply row"),
            _ => None,
        }
    }
}

impl fmt::Display for Refusal {
    fn fmt(&self, f: &mut fmt::Formatter) -> fmt::Result {
        f.write_str(match self {
            Refusal::Length => "the record must be exactly 26,132 bytes long, the work buffer 16,400",
            Refusal::Size => "the file is cut off or too long: it does not have the length that its counts need",
            Refusal::Mark => "this is no program file: it does not begin with the letters TCA",
            Refusal::Version => "the program file is of a version that this library does not know",
            Refusal::Count => {
                "the file's head is damaged: it must count 1 to 256 types and 1 to 1,024 rows, behind a zero byte"
            }
            Refusal::TypeRow => {
                "the type is malformed, repeats an earlier one, or is made of types that it may not use"
            }
            Refusal::Row => {
                "the row is malformed or stands behind the routine's end, or the routine is unfinished here"
            }
            Refusal::Future => "the row stands for a call that was sent, which no program file may hold",
            Refusal::Typing => {
                "the types do not fit: those of the row, of the rows below it or of the name that it uses"
            }
            Refusal::Unsound => "the record is damaged, or was not made by a load",
            Refusal::Header => {
                "the reply's head is damaged or its length is not what its count needs: it must count 1 to 256 rows"
            }
            Refusal::NotOpen => "no call of this number is open: it was never sent, or its reply has been taken",
            Refusal::ReplyRow => {
                "the row is malformed or stands behind the reply's end, or the reply is unfinished here"
            }
            Refusal::ReplyKind => {
                "a reply may hold strings, files, truths, lists and tuples only, and the row is something else"
            }
            Refusal::ReplyTyping => {
                "the types do not fit: those of the row and of the rows below it, or the reply's and the call's"
            }
            Refusal::ReplyRoom => "with this reply the routine would pass 2,048 rows",
        })
    }
}

/// A refused call: why, and where. No byte of any buffer has changed.
#[derive(Clone, Copy, Debug, PartialEq, Eq, Hash)]
pub struct Refused {
    /// Why.
    pub refusal: Refusal,
    /// The row, counted from 0, where the refusal names one, else 0.
    pub place: u32,
}

impl fmt::Display for Refused {
    fn fmt(&self, f: &mut fmt::Formatter) -> fmt::Result {
        if let Some(counted) = self.refusal.counted() {
            write!(f, "{counted} {}: ", self.place)?;
        }
        write!(f, "{} (refusal {})", self.refusal, self.refusal.number())
    }
}

impl std::error::Error for Refused {}

/// A verdict in words. The numbers are those that the entry can give; any other shows that the archive that was linked
/// is not the one that this crate is for, and nothing is known of the bytes.
pub(crate) fn outcome(verdict: Verdict, numbers: &[u32]) -> Result<(), Refused> {
    let Verdict { refusal, place } = verdict;
    if (refusal, place) == (0, 0) {
        return Ok(());
    }
    let known = Refusal::ALL.into_iter().find(|known| known.number() == refusal && numbers.contains(&refusal));
    match known {
        Some(refusal) => Err(Refused { refusal, place }),
        None => panic!(
            "libtca.a gave the unknown verdict {refusal}, {place}: it is not the library that this wrapper is for"
        ),
    }
}

#[cfg(test)]
mod tests {
    use super::*;

    #[test]
    fn each_number_of_the_library_has_its_refusal() {
        let all: Vec<u32> = (1..=16).collect();
        assert_eq!(outcome(Verdict { refusal: 0, place: 0 }, &all), Ok(()));
        for (k, refusal) in Refusal::ALL.into_iter().enumerate() {
            assert_eq!(refusal.number() as usize, k + 1);
            let verdict = Verdict { refusal: refusal.number(), place: 12 };
            assert_eq!(outcome(verdict, &all), Err(Refused { refusal, place: 12 }));
        }
    }

    #[test]
    #[should_panic(expected = "unknown verdict 10, 0")]
    fn a_number_of_another_entry_is_no_refusal() {
        let _ = outcome(Verdict { refusal: 10, place: 0 }, &[1, 2, 3]);
    }

    #[test]
    #[should_panic(expected = "unknown verdict 17, 0")]
    fn an_unknown_number_is_no_refusal() {
        let _ = outcome(Verdict { refusal: 17, place: 0 }, &[17]);
    }

    #[test]
    #[should_panic(expected = "unknown verdict 0, 3")]
    fn acceptance_at_a_place_is_no_acceptance() {
        let _ = outcome(Verdict { refusal: 0, place: 3 }, &[1]);
    }

    #[test]
    fn a_place_is_shown_where_one_is_named() {
        let shown = |refusal| Refused { refusal, place: 3 }.to_string();
        assert!(shown(Refusal::Mark).starts_with("this is no program file"));
        assert!(shown(Refusal::TypeRow).starts_with("type row 3: "));
        assert!(shown(Refusal::Typing).starts_with("row 3: "));
        assert!(shown(Refusal::ReplyKind).starts_with("reply row 3: "));
        assert!(Refusal::ALL.into_iter().all(|r| shown(r).ends_with(&format!(" (refusal {})", r.number()))));
    }
}
