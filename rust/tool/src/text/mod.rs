//! The text form: words and marks read into rows whose types may be left out, and the types filled in.

mod declare;
mod draft;
mod fill;
mod lex;
mod parse;
mod parser;
mod rows;

use std::fmt;

use library::Open;

use crate::bytes::{program_file, reply_of, Row, TypeRow};
use crate::types::Types;

/// A place in a text, counted from 1.
#[derive(Clone, Copy, Debug, Default, PartialEq, Eq)]
pub struct Spot {
    pub line: usize,
    pub column: usize,
}

/// What is wrong with a text, and where.
#[derive(Clone, Debug, PartialEq, Eq)]
pub struct TextError {
    pub spot: Spot,
    pub words: String,
}

impl fmt::Display for TextError {
    fn fmt(&self, f: &mut fmt::Formatter) -> fmt::Result {
        write!(f, "line {}, column {}: {}", self.spot.line, self.spot.column, self.words)
    }
}

fn wrong<T>(spot: Spot, words: impl Into<String>) -> Result<T, TextError> {
    Err(TextError { spot, words: words.into() })
}

/// A program made from text, with the spot of each type and row.
#[derive(Clone, Debug)]
pub struct Made {
    pub types: Vec<TypeRow>,
    pub rows: Vec<Row>,
    pub type_spots: Vec<Spot>,
    pub row_spots: Vec<Spot>,
}

impl Made {
    pub fn file(&self) -> Vec<u8> {
        program_file(&self.types, &self.rows)
    }
}

/// Reads a routine.
pub fn read_program(text: &str) -> Result<Made, TextError> {
    let draft = parse::program(text)?;
    fill::program(draft)
}

/// Reads a reply: `reply N` and its rows, or its rows alone if there is but one call that it can be for.
pub fn read_reply(text: &str, types: &Types, open: &[Open]) -> Result<Vec<u8>, TextError> {
    let (number, draft) = parse::reply(text, types)?;
    let asked = match (number, open) {
        (Some((number, spot)), _) => match open.iter().find(|asked| asked.number == number) {
            Some(asked) => *asked,
            None => return wrong(spot, format!("call {number} is not open; {}", open_words(open))),
        },
        (None, [only]) => *only,
        (None, _) => return wrong(draft.spot(), format!("say which call it is for: reply N; {}", open_words(open))),
    };
    Ok(reply_of(asked.number, &fill::reply(draft, asked.ty)?))
}

fn open_words(open: &[Open]) -> String {
    if open.is_empty() {
        return "no call is open".to_string();
    }
    format!("open: {}", crate::show::calls_words(open.iter().map(|open| open.number)))
}
