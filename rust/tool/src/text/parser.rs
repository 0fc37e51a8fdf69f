//! A text's tokens, one after another, and what a parser keeps between them.

use std::collections::{BTreeSet, HashMap};

use super::draft::Draft;
use super::lex::{tokens, Token};
use super::{wrong, Spot, TextError};

pub(super) const KEYWORDS: [&str; 29] = [
    "str",
    "file",
    "true",
    "false",
    "native",
    "foreign",
    "apply",
    "future",
    "if",
    "then",
    "else",
    "fix",
    "nil",
    "cons",
    "isnil",
    "zip",
    "tuple",
    "project",
    "list-project",
    "let",
    "in",
    "type",
    "tool",
    "name",
    "term",
    "Str",
    "File",
    "Bool",
    "List",
];

/// A declared tool.
pub(super) struct Tool {
    pub number: u32,
    pub ty: Option<u16>,
}

pub(super) struct Parser {
    pub tokens: Vec<(Token, Spot)>,
    pub at: usize,
    pub draft: Draft,
    pub type_names: HashMap<String, u16>,
    pub tools: HashMap<String, Tool>,
    pub names: HashMap<String, u16>,
    pub taken: BTreeSet<u16>,
    /// Whether types may be added: a routine's table grows by need, a record's is as it is.
    pub open_table: bool,
    pub most_rows: usize,
    /// How deep in a type the parser is.
    pub type_depth: usize,
}

impl Parser {
    pub(super) fn new(text: &str, draft: Draft, open_table: bool, most_rows: usize) -> Result<Parser, TextError> {
        Ok(Parser {
            tokens: tokens(text)?,
            at: 0,
            draft,
            type_names: HashMap::new(),
            tools: HashMap::new(),
            names: HashMap::new(),
            taken: BTreeSet::new(),
            open_table,
            most_rows,
            type_depth: 0,
        })
    }

    /// The numbers that the text itself gives to names, so that words get others.
    pub(super) fn take_numbers(&mut self) {
        for (k, (token, _)) in self.tokens.iter().enumerate() {
            let Token::Word(word) = token else { continue };
            self.taken.extend(numbered_name(word));
            if let (true, Some((Token::Number(number), _))) = (word == "name", self.tokens.get(k + 3)) {
                self.taken.extend(u16::try_from(*number).ok());
            }
        }
    }

    pub(super) fn peek(&self) -> Token {
        self.tokens[self.at].0.clone()
    }

    pub(super) fn spot(&self) -> Spot {
        self.tokens[self.at].1
    }

    pub(super) fn next(&mut self) -> Token {
        let token = self.peek();
        self.at = (self.at + 1).min(self.tokens.len() - 1);
        token
    }

    pub(super) fn wrong<T>(&self, words: &str) -> Result<T, TextError> {
        let met = match self.peek() {
            Token::Word(word) => format!("`{word}`"),
            Token::Number(number) => format!("`{number}`"),
            Token::Mark(mark) => format!("`{mark}`"),
            Token::End => "the text's end".to_string(),
        };
        wrong(self.spot(), format!("{words} (here is {met})"))
    }

    pub(super) fn end(self, words: &str) -> Result<Draft, TextError> {
        match self.peek() {
            Token::End => Ok(self.draft),
            _ => self.wrong(words),
        }
    }

    pub(super) fn is(&self, mark: &str) -> bool {
        matches!(&self.tokens[self.at].0, Token::Mark(other) if *other == mark)
    }

    /// Takes a mark if it stands here.
    pub(super) fn took(&mut self, mark: &str) -> bool {
        let there = self.is(mark);
        if there {
            self.next();
        }
        there
    }

    pub(super) fn mark(&mut self, mark: &str) -> Result<(), TextError> {
        match self.took(mark) {
            true => Ok(()),
            false => self.wrong(&format!("`{mark}` is awaited here")),
        }
    }

    /// Takes a word that only helps people, if it stands here.
    pub(super) fn skip(&mut self, word: &str) {
        if self.peek() == Token::Word(word.to_string()) {
            self.next();
        }
    }

    pub(super) fn number(&mut self, what: &str, from: u32, to: u32) -> Result<u32, TextError> {
        match self.peek() {
            Token::Number(number) if (u64::from(from)..=u64::from(to)).contains(&number) => {
                self.next();
                Ok(number as u32)
            }
            _ => self.wrong(&format!("{what}, {from} to {to}, is awaited here")),
        }
    }

    /// A word that is no keyword.
    pub(super) fn fresh_word(&mut self, what: &str) -> Result<String, TextError> {
        match self.peek() {
            Token::Word(word) if !KEYWORDS.contains(&word.as_str()) => {
                self.next();
                Ok(word)
            }
            _ => self.wrong(&format!("{what} is awaited here")),
        }
    }
}

/// The number in a name like `n7`.
pub(super) fn numbered_name(word: &str) -> Option<u16> {
    let digits = word.strip_prefix('n')?;
    let plain = digits.bytes().all(|byte| byte.is_ascii_digit()) && !digits.starts_with('0');
    digits.parse().ok().filter(|_| plain)
}
