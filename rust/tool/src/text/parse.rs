//! A whole text: a routine's declarations and its term, or a reply.

use super::draft::Draft;
use super::lex::Token;
use super::parser::Parser;
use super::{Spot, TextError};
use crate::bytes::{MAX_FILE_ROWS, MAX_NAME, MAX_REPLY_ROWS};
use crate::types::Types;

/// Reads a routine: declarations, `term`, rows.
pub fn program(text: &str) -> Result<Draft, TextError> {
    let mut parser = Parser::new(text, Draft::default(), true, MAX_FILE_ROWS)?;
    parser.take_numbers();
    loop {
        match parser.peek() {
            Token::Word(word) if word == "type" => parser.type_declaration()?,
            Token::Word(word) if word == "tool" => parser.tool_declaration()?,
            Token::Word(word) if word == "name" => parser.name_declaration()?,
            Token::Word(word) if word == "term" => break,
            _ => return parser.wrong("`type`, `tool`, `name` or `term` is awaited here"),
        }
    }
    parser.next();
    parser.row()?;
    parser.end("the routine is whole before this; is a row too many here, or an `apply` or `tuple` count too small?")
}

/// Reads a reply: perhaps `reply N`, then rows over the record's types.
#[allow(clippy::type_complexity)]
pub fn reply(text: &str, types: &Types) -> Result<(Option<(u32, Spot)>, Draft), TextError> {
    let draft = Draft { types: types.clone(), ..Draft::default() };
    let mut parser = Parser::new(text, draft, false, MAX_REPLY_ROWS)?;
    let given: Vec<(String, u16)> = (0..types.count() as u16).map(|ty| (format!("t{ty}"), ty)).collect();
    parser.type_names.extend(given);
    let mut number = None;
    if parser.peek() == Token::Word("reply".to_string()) {
        parser.next();
        let spot = parser.spot();
        number = Some((parser.number("a call's number", 1, MAX_NAME)?, spot));
    }
    parser.row()?;
    Ok((number, parser.end("the reply is whole before this")?))
}
