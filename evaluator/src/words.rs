//! The names of answers, refusals and kinds, for people.

use crate::entries::Answer;

/// The words for each answer of run.
pub const ANSWERS: [(Answer, &str); 7] = [
    (Answer::Value, "0 VALUE"),
    (Answer::Waiting, "1 WAITING"),
    (Answer::Sent, "2 SENT"),
    (Answer::Held, "3 HELD"),
    (Answer::Budget, "4 BUDGET"),
    (Answer::Room, "5 ROOM"),
    (Answer::Numbers, "6 NUMBERS"),
];

/// The words for each refusal, after document 01's table.
pub const REFUSALS: [&str; 17] = [
    "accepted",
    "record or work buffer of another length",
    "file under 10 bytes, or not the length its counts need",
    "mark",
    "version",
    "zero byte or a count",
    "bad type row",
    "row of bad kind, field or type number, after the tree's end, or tree unfinished",
    "future in a program",
    "row that fails typing",
    "record not sound",
    "reply header or length",
    "number not open",
    "reply row of bad kind, field or type number, after the tree's end, or tree unfinished",
    "reply row not of kind 1 to 4, 12, 13, 16",
    "reply row that fails typing, or row 0 not of the listed type",
    "term would pass 2,048 rows",
];

/// The kinds' names, by number.
pub const KINDS: [&str; 20] = [
    "",
    "str",
    "file",
    "true",
    "false",
    "variable",
    "native function",
    "foreign function",
    "apply",
    "future",
    "if",
    "fix",
    "nil",
    "cons",
    "isnil",
    "zip",
    "tuple",
    "project",
    "list project",
    "let",
];
