//! A text as words, numbers and marks, each with its spot.

use super::{wrong, Spot, TextError};

#[derive(Clone, Debug, PartialEq, Eq)]
pub enum Token {
    Word(String),
    Number(u64),
    /// One of `= : , ( ) [ ] { } |` or `->`.
    Mark(&'static str),
    End,
}

const MARKS: [&str; 11] = ["->", "=", ":", ",", "(", ")", "[", "]", "{", "}", "|"];

/// The tokens of a text; `#` begins a comment that goes to the end of its line.
pub fn tokens(text: &str) -> Result<Vec<(Token, Spot)>, TextError> {
    let mut tokens = Vec::new();
    let mut last = Spot { line: 1, column: 1 };
    for (number, line) in text.lines().enumerate() {
        let chars: Vec<char> = line.chars().collect();
        let mut at = 0;
        while at < chars.len() {
            let spot = Spot { line: number + 1, column: at + 1 };
            let c = chars[at];
            if c == '#' {
                break;
            }
            if c.is_whitespace() {
                at += 1;
                continue;
            }
            let (token, length) = token_at(&chars[at..], spot)?;
            tokens.push((token, spot));
            at += length;
        }
        last = Spot { line: number + 1, column: chars.len() + 1 };
    }
    tokens.push((Token::End, last));
    Ok(tokens)
}

fn token_at(chars: &[char], spot: Spot) -> Result<(Token, usize), TextError> {
    let c = chars[0];
    if c.is_ascii_digit() {
        let length = chars.iter().take_while(|c| c.is_ascii_alphanumeric() || **c == '_').count();
        let digits: String = chars[..length].iter().collect();
        return match digits.parse() {
            Ok(number) => Ok((Token::Number(number), length)),
            Err(_) => wrong(spot, format!("`{digits}` is no number that fits")),
        };
    }
    if c.is_ascii_alphabetic() || c == '_' {
        let mut length = 1;
        while length < chars.len() {
            let joins = chars[length] == '-' && chars.get(length + 1).is_some_and(char::is_ascii_alphanumeric);
            if !(chars[length].is_ascii_alphanumeric() || chars[length] == '_' || joins) {
                break;
            }
            length += 1;
        }
        return Ok((Token::Word(chars[..length].iter().collect()), length));
    }
    let starts = |mark: &&&str| mark.chars().eq(chars.iter().copied().take(mark.len()));
    match MARKS.iter().find(starts) {
        Some(mark) => Ok((Token::Mark(mark), mark.len())),
        None => wrong(spot, format!("`{c}` is no part of a routine in text")),
    }
}
