//! Sound records made without a load, near every limit, and the same damaged in each way that "sound" names.

use crate::layout::*;
use crate::make::files::{damage_rows, damage_types};
use crate::make::programs::{padding, program, Program, Wish};
use crate::random::Random;
use crate::record::{decode_types, Entry};
use crate::rows::{decode_rows, encode_rows, kind, Row};
use crate::table::{apply, leaf, let_in, plain, tuple, Table};
use crate::types::{TypeRow, BOOL, FILE, LIST, STR, TUPLE};

/// A sound record of one of several makes.
pub fn sound(random: &mut Random) -> Vec<u8> {
    let program = match random.below(22) {
        0 => room_edge(random),
        1 | 2 => reply_edge(random),
        _ => {
            let rows = match random.below(36) {
                0 => random.between(64, MAX_ROWS),
                1 => random.between(MAX_ROWS - 4, MAX_ROWS),
                _ => random.between(1, 48),
            };
            program(random, Wish { rows, most: MAX_ROWS, futures: true })
        }
    };
    record_of(random, program)
}

/// A term whose next step has just room, or just not.
fn room_edge(random: &mut Random) -> Program {
    let mut table = Table::default();
    let bool = table.bool();
    let bools = table.list(bool);
    let aim = random.between(MAX_ROWS - 2, MAX_ROWS + 2);
    let copies = random.between(2, 5);
    let most = (aim - 3) / copies;
    let bound = padding(bool, bools, random.between(most / 2, most));
    let rest = padding(bool, bools, aim - 1 - copies * bound.len());
    let (held, other) = (bound[0].ty, rest[0].ty);
    let mut types = vec![held; copies];
    types.push(other);
    let ty = table.tuple(&types);
    let mut elements = vec![leaf(kind::VARIABLE, held, 1); copies];
    elements.push(rest);
    let turn = random.below(elements.len());
    if held == other {
        elements.rotate_left(turn);
    }
    let body = tuple(ty, &elements);
    let rows = if random.one_in(2) {
        let_in(ty, 1, bound, body)
    } else {
        let function = table.native(&[(1, held)], ty);
        apply(ty, plain(kind::NATIVE, function, &[body]), &[bound])
    };
    Program { types: table.rows, rows, open: vec![] }
}

/// A term with one call standing in several places, and little room for its reply.
fn reply_edge(random: &mut Random) -> Program {
    let mut table = Table::default();
    let bool = table.bool();
    let bools = table.list(bool);
    let copies = random.between(1, 6);
    let number = random.between(1, 3) as u32;
    let spare = random.between(0, 200 * copies);
    let rest = padding(bool, bools, MAX_ROWS - 1 - copies - spare);
    let mut types = vec![bools; copies];
    types.push(rest[0].ty);
    let ty = table.tuple(&types);
    let mut elements = vec![leaf(kind::FUTURE, bools, number); copies];
    elements.push(rest);
    Program { types: table.rows, rows: tuple(ty, &elements), open: vec![Entry { number, ty: bools }] }
}

/// A sound record of a term and its calls: numbers moved, calls added that stand nowhere, any next number that fits.
fn record_of(random: &mut Random, mut program: Program) -> Vec<u8> {
    let last = program.open.last().map_or(0, |entry| entry.number);
    let late = random.one_in(4);
    let full = random.one_in(if late { 2 } else { 4 });
    let move_by = if late { 65_535 - last - random.below(3).min(65_535 - last as usize) as u32 } else { 0 };
    for entry in &mut program.open {
        entry.number += move_by;
    }
    for row in program.rows.iter_mut().filter(|row| row.kind == kind::FUTURE) {
        row.word += move_by;
    }
    let wanted = if full { random.between(MAX_OPEN - 1, MAX_OPEN) } else { program.open.len() + random.below(4) };
    add_entries(random, &mut program, wanted.min(MAX_OPEN));
    let last = program.open.last().map_or(0, |entry| entry.number);
    let next = match random.below(4) {
        0 if late => NUMBERS_END,
        1 if late => last.max(65_534) + 1,
        2 => (last + 1 + random.below(5) as u32).min(NUMBERS_END),
        _ => last + 1,
    };
    written(&program.types, &program.open, next, program.rows[0].ty, &program.rows)
}

/// Calls that are open and stand nowhere in the term.
fn add_entries(random: &mut Random, program: &mut Program, wanted: usize) {
    let ground = ground_types(&program.types);
    if ground.is_empty() {
        return;
    }
    for _ in 0..4 * MAX_OPEN {
        if program.open.len() >= wanted {
            break;
        }
        let last = program.open.last().map_or(0, |entry| entry.number);
        let number = random.between(1, (last as usize + 3).min(65_535)) as u32;
        let number = if last > 1_000 && random.one_in(2) { last - random.below(200) as u32 } else { number };
        if program.open.iter().all(|entry| entry.number != number) {
            program.open.push(Entry { number, ty: *random.pick(&ground) });
            program.open.sort_by_key(|entry| entry.number);
        }
    }
}

/// The ground types of a table, which may already be damaged.
fn ground_types(types: &[TypeRow]) -> Vec<u16> {
    let mut ground: Vec<bool> = Vec::new();
    for row in types {
        let is_ground = |ty: u16| ground.get(usize::from(ty)).copied().unwrap_or(false);
        let whole = match row.form {
            STR | FILE | BOOL => true,
            LIST => is_ground(row.result),
            TUPLE => row.parts().iter().all(|part| is_ground(part.ty)),
            _ => false,
        };
        ground.push(whole);
    }
    (0..types.len() as u16).filter(|&ty| ground[usize::from(ty)]).collect()
}

/// The record's bytes, from parts that may be sound or not; what does not fit is left out.
pub fn written(types: &[TypeRow], open: &[Entry], next: u32, program_type: u16, rows: &[Row]) -> Vec<u8> {
    let mut bytes = vec![0; RECORD_BYTES];
    bytes[..3].copy_from_slice(RECORD_MARK);
    put_u16(&mut bytes, RECORD_VERSION, VERSION);
    put_u16(&mut bytes, RECORD_TYPE_COUNT, types.len() as u16);
    put_u16(&mut bytes, RECORD_ROW_COUNT, rows.len() as u16);
    put_u16(&mut bytes, RECORD_OPEN_COUNT, open.len() as u16);
    put_u32(&mut bytes, RECORD_NEXT, next);
    put_u16(&mut bytes, RECORD_PROGRAM_TYPE, program_type);
    for (k, row) in types.iter().take(MAX_TYPES).enumerate() {
        let at = RECORD_TYPES + k * TYPE_BYTES;
        bytes[at..at + TYPE_BYTES].copy_from_slice(&row.encode());
    }
    for (k, entry) in open.iter().take(MAX_OPEN).enumerate() {
        put_entry(&mut bytes, k, *entry);
    }
    let row_bytes = encode_rows(&rows[..rows.len().min(MAX_ROWS)]);
    bytes[RECORD_ROWS..RECORD_ROWS + row_bytes.len()].copy_from_slice(&row_bytes);
    bytes
}

fn put_entry(bytes: &mut [u8], k: usize, entry: Entry) {
    let at = RECORD_OPEN + k * ENTRY_BYTES;
    put_u32(bytes, at, entry.number);
    put_u16(bytes, at + 4, entry.ty);
}

/// The ways of damaging a sound record: one for each thing that the definition of "sound" names.
pub const WAYS: [&str; 32] = [
    "mark",
    "version",
    "zero byte",
    "type count 0 or over 256",
    "type count one off",
    "row count 0 or over 2,048",
    "row count one off",
    "open count over 64",
    "open count one off",
    "next number 0 or over 65,536",
    "next number not above the last open one",
    "program type another",
    "program type beyond the table",
    "two zero bytes",
    "type row bad (6)",
    "unused type space",
    "open numbers equal",
    "open numbers falling",
    "open number 0",
    "open number the next one",
    "open type not ground",
    "open type beyond the table",
    "entry's two zeros",
    "unused list space",
    "term row of bad form (7) or typing (9)",
    "unused term space",
    "future not listed",
    "future of another type than listed",
    "an entry taken out (sound if its call stands nowhere)",
    "an entry of another ground type (sound if its call stands nowhere)",
    "any one bit",
    "any one byte",
];

/// Damages a sound record in one way, if it has the part; by chance it may stay sound.
pub fn damage(random: &mut Random, record: &mut [u8], way: usize) {
    let types_used = usize::from(u16_at(record, RECORD_TYPE_COUNT));
    let rows_used = usize::from(u16_at(record, RECORD_ROW_COUNT));
    let open_used = usize::from(u16_at(record, RECORD_OPEN_COUNT));
    let one_off =
        |random: &mut Random, count: usize| if random.one_in(2) { count + 1 } else { count.saturating_sub(1) };
    let some_byte = random.between(1, 255) as u8;
    let entry_at = RECORD_OPEN + ENTRY_BYTES * random.below(open_used);
    let types = decode_types(&record[RECORD_TYPES..RECORD_TYPES + types_used.min(MAX_TYPES) * TYPE_BYTES]);
    match way {
        0 => record[random.below(3)] ^= some_byte,
        1 => record[RECORD_VERSION + random.below(2)] ^= some_byte,
        2 => record[RECORD_ZERO] ^= some_byte,
        3 => put_u16(record, RECORD_TYPE_COUNT, *random.pick(&[0, 257, 65_535])),
        4 => put_u16(record, RECORD_TYPE_COUNT, one_off(random, types_used) as u16),
        5 => put_u16(record, RECORD_ROW_COUNT, *random.pick(&[0, 2_049, 65_535])),
        6 => put_u16(record, RECORD_ROW_COUNT, one_off(random, rows_used) as u16),
        7 => put_u16(record, RECORD_OPEN_COUNT, *random.pick(&[65, 66, 65_535])),
        8 => put_u16(record, RECORD_OPEN_COUNT, one_off(random, open_used) as u16),
        9 => put_u32(record, RECORD_NEXT, *random.pick(&[0, 65_537, u32::MAX])),
        10 if open_used > 0 => {
            let last = u32_at(record, RECORD_OPEN + ENTRY_BYTES * (open_used - 1));
            put_u32(record, RECORD_NEXT, last.saturating_sub(random.below(2) as u32));
        }
        11 => put_u16(record, RECORD_PROGRAM_TYPE, random.below(types_used) as u16),
        12 => put_u16(record, RECORD_PROGRAM_TYPE, (types_used + random.below(2)) as u16),
        13 => record[RECORD_TWO_ZEROS + random.below(2)] = some_byte,
        14 => {
            let mut changed = types.clone();
            damage_types(random, &mut changed);
            changed.truncate(types_used);
            for (k, row) in changed.iter().enumerate() {
                let at = RECORD_TYPES + k * TYPE_BYTES;
                record[at..at + TYPE_BYTES].copy_from_slice(&row.encode());
            }
        }
        15 => put_in(random, record, RECORD_TYPES + types_used * TYPE_BYTES, RECORD_OPEN, some_byte),
        16 | 17 if open_used > 1 => {
            let k = random.between(1, open_used - 1);
            let at = RECORD_OPEN + ENTRY_BYTES * k;
            let before = u32_at(record, at - ENTRY_BYTES);
            put_u32(record, at, if way == 16 { before } else { before.saturating_sub(1) });
        }
        18 if open_used > 0 => put_u32(record, RECORD_OPEN, 0),
        19 if open_used > 0 => {
            let next = u32_at(record, RECORD_NEXT);
            put_u32(record, RECORD_OPEN + ENTRY_BYTES * (open_used - 1), next.wrapping_add(random.below(2) as u32));
        }
        20 if open_used > 0 => {
            let functions: Vec<u16> = not_ground(&types);
            if !functions.is_empty() {
                put_u16(record, entry_at + 4, *random.pick(&functions));
            }
        }
        21 if open_used > 0 => put_u16(record, entry_at + 4, (types_used + random.below(2)) as u16),
        22 if open_used > 0 => record[entry_at + 6 + random.below(2)] = some_byte,
        23 => put_in(random, record, RECORD_OPEN + open_used * ENTRY_BYTES, RECORD_ROWS, some_byte),
        24 => {
            let mut rows = decode_rows(&record[RECORD_ROWS..RECORD_ROWS + rows_used * ROW_BYTES]);
            damage_rows(random, &types, &mut rows);
            rows.truncate(MAX_ROWS);
            record[RECORD_ROWS..].fill(0);
            let bytes = encode_rows(&rows);
            record[RECORD_ROWS..RECORD_ROWS + bytes.len()].copy_from_slice(&bytes);
            put_u16(record, RECORD_ROW_COUNT, rows.len() as u16);
        }
        25 => put_in(random, record, RECORD_ROWS + rows_used * ROW_BYTES, RECORD_BYTES, some_byte),
        26 | 27 => change_future(random, record, rows_used, types_used, way == 26),
        28 if open_used > 0 => {
            let end = RECORD_OPEN + ENTRY_BYTES * open_used;
            record.copy_within(entry_at + ENTRY_BYTES..end, entry_at);
            record[end - ENTRY_BYTES..end].fill(0);
            put_u16(record, RECORD_OPEN_COUNT, open_used as u16 - 1);
        }
        29 if open_used > 0 => {
            let ground = ground_types(&types);
            if !ground.is_empty() {
                put_u16(record, entry_at + 4, *random.pick(&ground));
            }
        }
        30 => {
            let at = random.below(record.len());
            record[at] ^= 1 << random.below(8);
        }
        31 => {
            let end = if random.one_in(2) { RECORD_TYPES } else { RECORD_ROWS + rows_used * ROW_BYTES };
            record[random.below(end)] = some_byte;
        }
        // The record lacks the part that this way damages.
        _ => {}
    }
}

fn not_ground(types: &[TypeRow]) -> Vec<u16> {
    let ground = ground_types(types);
    (0..types.len() as u16).filter(|ty| !ground.contains(ty)).collect()
}

/// A byte somewhere in unused space, most often at its first or last place.
fn put_in(random: &mut Random, record: &mut [u8], from: usize, to: usize, byte: u8) {
    if from < to {
        let at = match random.below(3) {
            0 => from,
            1 => to - 1,
            _ => random.between(from, to - 1),
        };
        record[at] = byte;
    }
}

/// A future that names another call, or states another type.
fn change_future(random: &mut Random, record: &mut [u8], rows_used: usize, types_used: usize, number: bool) {
    let is_future = |record: &[u8], k: usize| record[RECORD_ROWS + k * ROW_BYTES] == kind::FUTURE;
    let places: Vec<usize> = (0..rows_used).filter(|&k| is_future(record, k)).collect();
    if places.is_empty() {
        return;
    }
    let at = RECORD_ROWS + random.pick(&places) * ROW_BYTES;
    if number {
        let other = random.between(1, 70) as u32;
        put_u32(record, at + 4, other);
    } else {
        put_u16(record, at + 2, random.below(types_used) as u16);
    }
}
