//! The byte layouts of document 01, "Bytes": every size, limit and offset is written here once.

/// A program file's head: mark, version, zero byte, type count, row count.
pub const FILE_HEAD: usize = 10;
/// "36 bytes a type, 8 bytes a row."
pub const TYPE_BYTES: usize = 36;
pub const ROW_BYTES: usize = 8;
/// An open list entry: number u32, type u16, two zeros.
pub const ENTRY_BYTES: usize = 8;
/// A reply's head: number u32, row count u16, two zeros.
pub const REPLY_HEAD: usize = 8;
/// A sent call's head: number u32, tool u32, row count u16, result type u16.
pub const CALL_HEAD: usize = 12;

pub const FILE_MARK: &[u8; 3] = b"TCA";
pub const RECORD_MARK: &[u8; 3] = b"TCR";
pub const VERSION: u16 = 1;

pub const MAX_TYPES: usize = 256;
pub const MAX_PROGRAM_ROWS: usize = 1_024;
pub const MAX_ROWS: usize = 2_048;
pub const MAX_REPLY_ROWS: usize = 256;
pub const MAX_OPEN: usize = 64;
/// The next number once 65,535 has been sent: no number is left.
pub const NUMBERS_END: u32 = 65_536;
/// Names, tools and call numbers are 1 to 65,535.
pub const MAX_WORD: u32 = 65_535;
/// A function or tuple has at most eight parts.
pub const MAX_PARTS: usize = 8;

/// The run record's parts, in order.
pub const RECORD_TYPES: usize = 20;
pub const RECORD_OPEN: usize = RECORD_TYPES + MAX_TYPES * TYPE_BYTES;
pub const RECORD_ROWS: usize = RECORD_OPEN + MAX_OPEN * ENTRY_BYTES;
pub const RECORD_BYTES: usize = RECORD_ROWS + MAX_ROWS * ROW_BYTES;
pub const WORK_BYTES: usize = 16_400;

/// The record head's fields, by offset.
pub const RECORD_VERSION: usize = 3;
pub const RECORD_ZERO: usize = 5;
pub const RECORD_TYPE_COUNT: usize = 6;
pub const RECORD_ROW_COUNT: usize = 8;
pub const RECORD_OPEN_COUNT: usize = 10;
pub const RECORD_NEXT: usize = 12;
pub const RECORD_PROGRAM_TYPE: usize = 16;
pub const RECORD_TWO_ZEROS: usize = 18;

/// "Run record, 26,132 bytes."
const _: () = assert!(RECORD_BYTES == 26_132);

/// Reads a little-endian u16; the caller has seen to it that two bytes stand there.
pub fn u16_at(bytes: &[u8], at: usize) -> u16 {
    u16::from_le_bytes([bytes[at], bytes[at + 1]])
}

/// Reads a little-endian u32; the caller has seen to it that four bytes stand there.
pub fn u32_at(bytes: &[u8], at: usize) -> u32 {
    u32::from_le_bytes([bytes[at], bytes[at + 1], bytes[at + 2], bytes[at + 3]])
}

pub fn put_u16(bytes: &mut [u8], at: usize, value: u16) {
    bytes[at..at + 2].copy_from_slice(&value.to_le_bytes());
}

pub fn put_u32(bytes: &mut [u8], at: usize, value: u32) {
    bytes[at..at + 4].copy_from_slice(&value.to_le_bytes());
}

pub fn all_zero(bytes: &[u8]) -> bool {
    bytes.iter().fold(0, |seen, byte| seen | byte) == 0
}
