//! Rows: each is its words, its type if stated, then its children. Lines do not matter.

use super::draft::{DraftRow, Stated};
use super::lex::Token;
use super::parser::{Parser, KEYWORDS};
use super::{wrong, Spot, TextError};
use crate::bytes::{form, kind, Row, TypeRow, MAX_NAME, MAX_PARTS};

impl Parser {
    fn push(&mut self, kind: u8, n: u8, word: u32, spot: Spot) -> Result<usize, TextError> {
        if self.draft.rows.len() == self.most_rows {
            return wrong(spot, format!("there are over {} rows", self.most_rows));
        }
        self.draft.rows.push(DraftRow { row: Row { kind, n, ty: 0, word }, stated: Stated::Nothing, spot });
        Ok(self.draft.rows.len() - 1)
    }

    /// The type that a row states, if it does.
    fn stated(&mut self, place: usize) -> Result<(), TextError> {
        if self.took(":") {
            self.draft.rows[place].stated = Stated::Type(self.ty()?);
        }
        Ok(())
    }

    /// A row and all that is below it.
    pub(super) fn row(&mut self) -> Result<(), TextError> {
        // A row may be told with its number in front, as `show` does; the number says nothing.
        let numbered = matches!(self.tokens.get(self.at + 1), Some((Token::Mark("|"), _)));
        if numbered && matches!(self.peek(), Token::Number(_)) {
            self.at += 2;
        }
        let spot = self.spot();
        if self.took("[") {
            return self.list(spot);
        }
        if self.took("{") {
            let place = self.push(kind::TUPLE, 0, 0, spot)?;
            return self.elements(place, "}");
        }
        let Token::Word(word) = self.peek() else {
            return self.wrong("a row is awaited here");
        };
        self.next();
        match word.as_str() {
            "true" => self.leaf(kind::TRUE, 0, spot),
            "false" => self.leaf(kind::FALSE, 0, spot),
            "nil" => self.leaf(kind::NIL, 0, spot),
            "foreign" => self.foreign(spot),
            "native" => self.native(spot),
            "let" => self.let_row(spot),
            "if" => self.if_row(spot),
            "fix" => self.over(kind::FIX, 0, 1, spot),
            "isnil" => self.over(kind::ISNIL, 0, 1, spot),
            "cons" => self.over(kind::CONS, 0, 2, spot),
            "str" | "file" | "future" | "apply" | "tuple" | "project" | "list-project" | "zip" => {
                self.numbered_row(&word, spot)
            }
            _ if KEYWORDS.contains(&word.as_str()) => wrong(spot, format!("a row is awaited here (here is `{word}`)")),
            _ => self.named(&word, spot),
        }
    }

    /// A row whose word has a number behind it.
    fn numbered_row(&mut self, word: &str, spot: Spot) -> Result<(), TextError> {
        let (kind, what, from, to) = match word {
            "str" => (kind::STR, "a number", 0, u32::MAX),
            "file" => (kind::FILE, "a number", 0, u32::MAX),
            "future" => (kind::FUTURE, "a call's number", 1, MAX_NAME),
            "apply" => (kind::APPLY, "a count of arguments", 0, 8),
            "tuple" => (kind::TUPLE, "a count of elements", 1, 8),
            "project" => (kind::PROJECT, "a place", 1, 8),
            "list-project" => (kind::LIST_PROJECT, "a place", 1, 8),
            _ => {
                let mask = self.mask()?;
                return self.over(kind::ZIP, mask, 1, spot);
            }
        };
        let number = self.number(what, from, to)?;
        match kind {
            kind::STR | kind::FILE | kind::FUTURE => self.leaf(kind, number, spot),
            kind::APPLY => self.over(kind, number as u8, 1 + number, spot),
            kind::TUPLE => self.over(kind, number as u8, number, spot),
            _ => self.over(kind, number as u8, 1, spot),
        }
    }

    fn if_row(&mut self, spot: Spot) -> Result<(), TextError> {
        self.over(kind::IF, 0, 1, spot)?;
        self.skip("then");
        self.row()?;
        self.skip("else");
        self.row()
    }

    fn leaf(&mut self, kind: u8, word: u32, spot: Spot) -> Result<(), TextError> {
        let place = self.push(kind, 0, word, spot)?;
        self.stated(place)
    }

    /// A row over so many children.
    fn over(&mut self, kind: u8, n: u8, children: u32, spot: Spot) -> Result<(), TextError> {
        let place = self.push(kind, n, 0, spot)?;
        self.stated(place)?;
        (0..children).try_for_each(|_| self.row())
    }

    fn foreign(&mut self, spot: Spot) -> Result<(), TextError> {
        if let Token::Word(word) = self.peek() {
            self.next();
            return match self.tools.contains_key(&word) {
                true => self.tool(&word, spot),
                false => wrong(spot, format!("no tool is called {word}; declare it above with `tool {word} = ..`")),
            };
        }
        let number = self.number("a tool's number", 1, MAX_NAME)?;
        self.leaf(kind::FOREIGN, number, spot)
    }

    /// A declared tool as a foreign function.
    fn tool(&mut self, word: &str, spot: Spot) -> Result<(), TextError> {
        let tool = &self.tools[word];
        let (number, ty) = (tool.number, tool.ty);
        let place = self.push(kind::FOREIGN, 0, number, spot)?;
        self.draft.rows[place].stated = ty.map_or(Stated::Nothing, Stated::Type);
        self.stated(place)
    }

    fn native(&mut self, spot: Spot) -> Result<(), TextError> {
        let place = self.push(kind::NATIVE, 0, 0, spot)?;
        if self.is("(") {
            self.draft.rows[place].stated = Stated::Arguments(self.arguments()?);
            // The result is stated or the body's.
            if self.took("->") {
                let result = self.ty()?;
                if let Stated::Arguments(parts) = self.draft.rows[place].stated.clone() {
                    let ty = self.number_of(TypeRow::new(form::NATIVE, result, &parts), spot)?;
                    self.draft.rows[place].stated = Stated::Type(ty);
                }
            }
        } else {
            self.stated(place)?;
        }
        self.row()
    }

    fn let_row(&mut self, spot: Spot) -> Result<(), TextError> {
        let name = self.name()?;
        let place = self.push(kind::LET, 0, u32::from(name), spot)?;
        if self.is(":") {
            return self.wrong(
                "`=` is awaited here; a bound name has its term's type, and the let's own type stands behind `=`",
            );
        }
        self.mark("=")?;
        self.stated(place)?;
        self.row()?;
        self.skip("in");
        self.row()
    }

    /// A zip's arguments, counted from 1: `1,3`.
    fn mask(&mut self) -> Result<u8, TextError> {
        let mut mask = 0;
        loop {
            mask |= 1 << (self.number("an argument's place", 1, 8)? - 1);
            if !self.took(",") {
                return Ok(mask);
            }
        }
    }

    /// A name or a tool; with `(` behind it, its application.
    fn named(&mut self, word: &str, spot: Spot) -> Result<(), TextError> {
        if !self.is("(") {
            return self.function(word, spot, true);
        }
        let place = self.push(kind::APPLY, 0, 0, spot)?;
        self.function(word, spot, false)?;
        self.next();
        if self.took(")") {
            return self.stated(place);
        }
        self.elements(place, ")")
    }

    fn function(&mut self, word: &str, spot: Spot, may_state: bool) -> Result<(), TextError> {
        if self.tools.contains_key(word) {
            return self.tool(word, spot);
        }
        let name = self.name_number(word);
        let place = self.push(kind::VARIABLE, 0, u32::from(name), spot)?;
        if may_state {
            self.stated(place)?;
        }
        Ok(())
    }

    /// The children of a tuple or the arguments of an application, between commas, and the type behind them.
    fn elements(&mut self, place: usize, close: &str) -> Result<(), TextError> {
        loop {
            if usize::from(self.draft.rows[place].row.n) == MAX_PARTS {
                return self.wrong("there are at most 8 parts");
            }
            self.draft.rows[place].row.n += 1;
            self.row()?;
            if self.took(close) {
                return self.stated(place);
            }
            self.mark(",")?;
        }
    }

    /// A list between brackets: its cons rows and its nil, which all have the type behind it.
    fn list(&mut self, spot: Spot) -> Result<(), TextError> {
        let mut places = Vec::new();
        while !self.is("]") {
            let at = self.spot();
            places.push(self.push(kind::CONS, 0, 0, at)?);
            self.row()?;
            if !self.is("]") {
                self.mark(",")?;
            }
        }
        self.next();
        places.push(self.push(kind::NIL, 0, 0, spot)?);
        if self.took(":") {
            let ty = self.ty()?;
            places.into_iter().for_each(|place| self.draft.rows[place].stated = Stated::Type(ty));
        }
        Ok(())
    }
}
