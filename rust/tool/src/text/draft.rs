//! What a text says before its types are filled in: rows with their spots, and the types named so far.

use super::{wrong, Spot, TextError};
use crate::bytes::{Part, Row, TypeRow, MAX_TYPES};
use crate::types::Types;

/// How a row's type is known.
#[derive(Clone, Debug)]
pub enum Stated {
    Type(u16),
    /// A native function whose arguments are stated; its result is its body's type.
    Arguments(Vec<Part>),
    Nothing,
}

/// A row of a text, its type perhaps to be filled in.
#[derive(Clone, Debug)]
pub struct DraftRow {
    pub row: Row,
    pub stated: Stated,
    pub spot: Spot,
}

/// What a text says, before its types are filled in.
#[derive(Debug, Default)]
pub struct Draft {
    pub types: Types,
    pub type_spots: Vec<Spot>,
    pub rows: Vec<DraftRow>,
}

impl Draft {
    /// Where the rows begin.
    pub fn spot(&self) -> Spot {
        self.rows.first().map(|row| row.spot).unwrap_or_default()
    }

    /// The number of a type row, old or new.
    pub fn number_of(&mut self, row: TypeRow, spot: Spot) -> Result<u16, TextError> {
        if let Some(ty) = self.types.find(&row) {
            return Ok(ty);
        }
        if self.types.count() == MAX_TYPES {
            return wrong(spot, "there are over 256 types");
        }
        self.types.push(row);
        self.type_spots.push(spot);
        Ok(self.types.count() as u16 - 1)
    }
}
