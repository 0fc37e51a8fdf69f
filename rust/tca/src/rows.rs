//! Rows as values, and what is made of them outside a record: the call that a run sends, and the reply to it.

use crate::ROW_BYTES;

/// A sent call's head: number, tool, row count, result type.
const CALL_HEAD_BYTES: usize = 12;

/// A term row, with the fields of document 01. What they mean depends on the kind.
#[derive(Clone, Copy, Debug, PartialEq, Eq, Hash)]
pub struct Row {
    /// 1 str, 2 file, 3 true, 4 false, 12 nil, 13 cons, 16 tuple, and so on.
    pub kind: u8,
    /// The number of arguments or elements, a mask or a place.
    pub n: u8,
    /// The type that the row states, by its number in the type table.
    pub ty: u16,
    /// The number of a string, file, name, tool or call.
    pub word: u32,
}

impl Row {
    /// Reads a row.
    pub fn from_bytes(bytes: [u8; ROW_BYTES]) -> Row {
        let [kind, n, ty_low, ty_high, a, b, c, d] = bytes;
        Row { kind, n, ty: u16::from_le_bytes([ty_low, ty_high]), word: u32::from_le_bytes([a, b, c, d]) }
    }

    /// Writes a row.
    pub fn to_bytes(self) -> [u8; ROW_BYTES] {
        let ([ty_low, ty_high], [a, b, c, d]) = (self.ty.to_le_bytes(), self.word.to_le_bytes());
        [self.kind, self.n, ty_low, ty_high, a, b, c, d]
    }
}

/// Reads rows one behind the other; what is left over at the end is no row.
pub(crate) fn rows_of(bytes: &[u8]) -> impl Iterator<Item = Row> + '_ {
    bytes.chunks_exact(ROW_BYTES).map(|row| Row::from_bytes(row.try_into().expect("a chunk is a row long")))
}

/// A call that a run has sent: for the host to pass on to its tool.
#[derive(Clone, Debug, PartialEq, Eq, Hash)]
pub struct Call {
    /// The number that the reply must carry. No other call of the record has it.
    pub number: u32,
    /// The tool.
    pub tool: u32,
    /// The type of the result, by its number in the type table.
    pub result: u16,
    /// The rows of all arguments, one value behind the other.
    pub rows: Vec<Row>,
}

impl Call {
    /// Reads a sent call. What stands behind it, as in a work buffer, does not matter; bytes that end before the call
    /// does are none.
    pub fn from_bytes(bytes: &[u8]) -> Option<Call> {
        let head: &[u8; CALL_HEAD_BYTES] = bytes.first_chunk()?;
        let [n0, n1, n2, n3, t0, t1, t2, t3, c0, c1, r0, r1] = *head;
        let count = usize::from(u16::from_le_bytes([c0, c1]));
        let rows = bytes[CALL_HEAD_BYTES..].get(..count * ROW_BYTES)?;
        Some(Call {
            number: u32::from_le_bytes([n0, n1, n2, n3]),
            tool: u32::from_le_bytes([t0, t1, t2, t3]),
            result: u16::from_le_bytes([r0, r1]),
            rows: rows_of(rows).collect(),
        })
    }

    /// The call as the bytes that the work buffer begins with.
    pub fn to_bytes(&self) -> Vec<u8> {
        let mut bytes = Vec::with_capacity(CALL_HEAD_BYTES + self.rows.len() * ROW_BYTES);
        bytes.extend(self.number.to_le_bytes());
        bytes.extend(self.tool.to_le_bytes());
        bytes.extend((self.rows.len() as u16).to_le_bytes());
        bytes.extend(self.result.to_le_bytes());
        bytes.extend(self.rows.iter().flat_map(|row| row.to_bytes()));
        bytes
    }

    /// A reply to this call.
    pub fn reply(&self, rows: &[Row]) -> Vec<u8> {
        reply_of(self.number, rows)
    }
}

/// The bytes of a reply to the call of a number. More rows than a reply may have make bytes that are refused.
pub fn reply_of(number: u32, rows: &[Row]) -> Vec<u8> {
    let mut bytes = Vec::with_capacity(8 + rows.len() * ROW_BYTES);
    bytes.extend(number.to_le_bytes());
    bytes.extend((rows.len() as u16).to_le_bytes());
    bytes.extend([0, 0]);
    bytes.extend(rows.iter().flat_map(|row| row.to_bytes()));
    bytes
}

#[cfg(test)]
mod tests {
    use super::*;

    /// A call by hand: number 1, tool 900, one row of arguments, result type 2; str 7 of type 0.
    const BYTES: [u8; 20] = [1, 0, 0, 0, 0x84, 3, 0, 0, 1, 0, 2, 0, 1, 0, 0, 0, 7, 0, 0, 0];

    fn call() -> Call {
        Call { number: 1, tool: 900, result: 2, rows: vec![Row { kind: 1, n: 0, ty: 0, word: 7 }] }
    }

    #[test]
    fn a_call_is_read_and_written() {
        assert_eq!(call().to_bytes(), BYTES);
        assert_eq!(Call::from_bytes(&BYTES), Some(call()));
        assert_eq!(Call::from_bytes(&[BYTES.as_slice(), &[0; 100]].concat()), Some(call()));
    }

    #[test]
    fn a_call_cut_off_is_none() {
        assert!((0..BYTES.len()).all(|length| Call::from_bytes(&BYTES[..length]).is_none()));
    }

    #[test]
    fn a_reply_is_written() {
        let row = Row { kind: 13, n: 1, ty: 0x203, word: 0x0708_090A };
        let reply = [1, 0, 0, 0, 1, 0, 0, 0, 13, 1, 3, 2, 10, 9, 8, 7];
        assert_eq!(call().reply(&[row]), reply);
        assert_eq!(Row::from_bytes(row.to_bytes()), row);
    }
}
