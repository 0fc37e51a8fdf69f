//! Declarations and types: what `type`, `tool` and `name` say, and a type's number in the table.

use super::lex::Token;
use super::parser::{numbered_name, Parser, Tool};
use super::{wrong, Spot, TextError};
use crate::bytes::{form, Part, TypeRow, MAX_NAME, MAX_PARTS, MAX_TYPES};

impl Parser {
    pub(super) fn type_declaration(&mut self) -> Result<(), TextError> {
        self.next();
        let spot = self.spot();
        let word = self.fresh_word("the name of a type")?;
        self.mark("=")?;
        let ty = self.ty()?;
        match self.type_names.insert(word.clone(), ty) {
            None => Ok(()),
            Some(_) => wrong(spot, format!("the type {word} is declared twice")),
        }
    }

    pub(super) fn tool_declaration(&mut self) -> Result<(), TextError> {
        self.next();
        let spot = self.spot();
        let word = self.fresh_word("the name of a tool")?;
        self.mark("=")?;
        let number = self.number("a tool's number", 1, MAX_NAME)?;
        let ty = if self.took(":") { Some(self.ty()?) } else { None };
        match self.tools.insert(word.clone(), Tool { number, ty }) {
            None => Ok(()),
            Some(_) => wrong(spot, format!("the tool {word} is declared twice")),
        }
    }

    pub(super) fn name_declaration(&mut self) -> Result<(), TextError> {
        self.next();
        let spot = self.spot();
        let word = self.fresh_word("a name")?;
        self.mark("=")?;
        let number = self.number("a name's number", 1, MAX_NAME)? as u16;
        match self.names.insert(word.clone(), number) {
            None => Ok(()),
            Some(_) => wrong(spot, format!("the name {word} is declared twice")),
        }
    }

    /// A name's number: `n7` is 7, a declared word its own, any other word the least that the text does not use.
    pub(super) fn name(&mut self) -> Result<u16, TextError> {
        let spot = self.spot();
        let word = self.fresh_word("a name")?;
        if self.tools.contains_key(&word) {
            return wrong(spot, format!("{word} is a tool; a name that is bound needs another word"));
        }
        Ok(self.name_number(&word))
    }

    pub(super) fn name_number(&mut self, word: &str) -> u16 {
        if let Some(number) = numbered_name(word).or_else(|| self.names.get(word).copied()) {
            return number;
        }
        let free = (1..=u16::MAX).find(|number| !self.taken.contains(number)).unwrap_or(u16::MAX);
        self.taken.insert(free);
        self.names.insert(word.to_string(), free);
        free
    }

    pub(super) fn ty(&mut self) -> Result<u16, TextError> {
        if self.type_depth == MAX_TYPES {
            return self.wrong("there are over 256 types");
        }
        self.type_depth += 1;
        let ty = self.type_here();
        self.type_depth -= 1;
        ty
    }

    pub(super) fn type_here(&mut self) -> Result<u16, TextError> {
        let spot = self.spot();
        let Token::Word(word) = self.peek() else {
            if self.is("{") {
                self.next();
                let parts = self.parts("}", |parser| Ok(Part { name: 0, ty: parser.ty()? }))?;
                return self.number_of(TypeRow::new(form::TUPLE, 0, &parts), spot);
            }
            return self
                .wrong("a type is awaited here: Str, File, Bool, List T, {T, T}, native(..) -> T or foreign(..) -> T");
        };
        self.next();
        let row = match word.as_str() {
            "Str" => TypeRow::new(form::STR, 0, &[]),
            "File" => TypeRow::new(form::FILE, 0, &[]),
            "Bool" => TypeRow::new(form::BOOL, 0, &[]),
            "List" => TypeRow::new(form::LIST, self.ty()?, &[]),
            "native" | "foreign" => {
                let parts = self.arguments()?;
                self.mark("->")?;
                let result = self.ty()?;
                TypeRow::new(if word == "native" { form::NATIVE } else { form::FOREIGN }, result, &parts)
            }
            _ => match self.type_names.get(&word) {
                Some(ty) => return Ok(*ty),
                None => {
                    return wrong(spot, format!("no type is called {word}; declare it above with `type {word} = ..`"))
                }
            },
        };
        self.number_of(row, spot)
    }

    /// The arguments of a function type: `(name: type, ..)`.
    pub(super) fn arguments(&mut self) -> Result<Vec<Part>, TextError> {
        self.mark("(")?;
        if self.took(")") {
            return Ok(Vec::new());
        }
        self.parts(")", |parser| {
            let name = parser.name()?;
            parser.mark(":")?;
            Ok(Part { name, ty: parser.ty()? })
        })
    }

    /// One to eight parts between commas, up to a closing mark.
    pub(super) fn parts(
        &mut self,
        close: &str,
        part: impl Fn(&mut Parser) -> Result<Part, TextError>,
    ) -> Result<Vec<Part>, TextError> {
        let mut parts = Vec::new();
        loop {
            if parts.len() == MAX_PARTS {
                return self.wrong("a function or tuple has at most 8 parts");
            }
            parts.push(part(self)?);
            if self.took(close) {
                return Ok(parts);
            }
            self.mark(",")?;
        }
    }

    /// The number of a type row, which is added if the table grows by need.
    pub(super) fn number_of(&mut self, row: TypeRow, spot: Spot) -> Result<u16, TextError> {
        if !self.open_table && self.draft.types.find(&row).is_none() {
            let words = crate::words::Words::new(&self.draft.types).written(&row);
            return wrong(spot, format!("the record has no type {words}"));
        }
        self.draft.number_of(row, spot)
    }
}
