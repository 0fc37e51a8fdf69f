//! Replies to a record's open calls: right ones of many sizes, and wrong ones for each of refusals 11 to 16.

use crate::fault::Bend;
use crate::layout::*;
use crate::make::files::damage_rows;
use crate::make::programs::value;
use crate::random::Random;
use crate::record::{Entry, Record};
use crate::rows::{kind, Row};
use crate::table::reply_of;

/// A reply for the record as it stands: mostly right, often wrong in one way, sometimes in two.
pub fn reply_for(random: &mut Random, record: &[u8]) -> Vec<u8> {
    let Some(kept) = Record::decode_sound(record, Bend::NONE) else {
        return any_bytes(random);
    };
    let (number, mut rows) = match kept.open.is_empty() {
        true => (random.between(0, 3) as u32, some_rows(random, &kept)),
        false => {
            let entry = *random.pick(&kept.open);
            (entry.number, right_rows(random, &kept, entry))
        }
    };
    if !kept.open.is_empty() && random.below(5) < 3 {
        return reply_of(number, &rows);
    }
    let number = if random.one_in(5) { other_number(random, &kept) } else { number };
    let deeds = if random.one_in(4) { 2 } else { 1 };
    for _ in 0..deeds {
        match random.below(7) {
            0 => {}
            1 => rows = some_rows(random, &kept),
            2 => put_other_kind(random, &mut rows),
            3 => put_other_type(random, &kept, &mut rows),
            4 => resize(random, &mut rows),
            _ => damage_rows(random, &kept.types.rows, &mut rows),
        }
    }
    let mut reply = reply_of(number, &rows);
    if random.one_in(5) {
        damage_header(random, &mut reply);
    }
    reply
}

/// Rows of a value of the entry's type; now and then as many as just fit the record, or one too many.
pub fn right_rows(random: &mut Random, kept: &Record, entry: Entry) -> Vec<Row> {
    let futures = kept.rows.iter().filter(|row| row.kind == kind::FUTURE && row.word == entry.number).count();
    let spare = MAX_ROWS - kept.rows.len();
    let edge = match futures {
        0 => MAX_REPLY_ROWS,
        _ => spare / futures + 1 + random.below(3),
    };
    let want = match random.below(6) {
        0 => random.between(1, MAX_REPLY_ROWS),
        1 => MAX_REPLY_ROWS,
        2 => edge.min(MAX_REPLY_ROWS),
        _ => random.between(1, 12),
    };
    let mut rows = Vec::new();
    value(random, &kept.types.rows, entry.ty, want, &mut rows);
    if rows.len() > MAX_REPLY_ROWS {
        rows.clear();
        value(random, &kept.types.rows, entry.ty, 1, &mut rows);
    }
    rows
}

/// A value of any ground type of the table.
fn some_rows(random: &mut Random, kept: &Record) -> Vec<Row> {
    let ground: Vec<u16> = (0..kept.types.count() as u16).filter(|&ty| kept.types.is_ground(ty)).collect();
    let mut rows = Vec::new();
    if ground.is_empty() {
        rows.push(Row { kind: kind::TRUE, n: 0, ty: 0, word: 0 });
    } else {
        let ty = *random.pick(&ground);
        let want = random.between(1, 9);
        value(random, &kept.types.rows, ty, want, &mut rows);
    }
    rows
}

/// Numbers that are not open, or only by chance: 0, the next, one over the limits, one long closed.
fn other_number(random: &mut Random, kept: &Record) -> u32 {
    let near = random.below(kept.next as usize + 2) as u32;
    *random.pick(&[0, kept.next, kept.next + 1, 65_535, 65_536, u32::MAX, near])
}

/// A well-formed row of a kind that may not stand in a reply.
fn put_other_kind(random: &mut Random, rows: &mut [Row]) {
    let place = random.below(rows.len());
    let row = &mut rows[place];
    let kinds: &[u8] = match row.children() {
        0 => &[kind::VARIABLE, kind::FOREIGN, kind::FUTURE],
        1 => &[kind::NATIVE, kind::FIX, kind::ISNIL],
        2 => &[kind::LET],
        3 => &[kind::IF],
        _ => &[kind::APPLY],
    };
    let chosen = *random.pick(kinds);
    let named = matches!(chosen, kind::VARIABLE | kind::FOREIGN | kind::FUTURE | kind::LET);
    *row =
        Row { kind: chosen, n: if chosen == kind::APPLY { row.n - 1 } else { 0 }, ty: row.ty, word: u32::from(named) };
}

/// Another type somewhere: at the first row, or below it, where only a whole look finds it.
fn put_other_type(random: &mut Random, kept: &Record, rows: &mut [Row]) {
    let place = if random.one_in(3) { 0 } else { rows.len() - 1 - random.below(rows.len().min(4)) };
    let form = kept.types.rows.get(usize::from(rows[place].ty)).map(|row| row.form);
    let like: Vec<u16> = (0..kept.types.count() as u16).filter(|&ty| Some(kept.types.form(ty)) == form).collect();
    rows[place].ty = match like.is_empty() || random.one_in(3) {
        true => random.below(kept.types.count()) as u16,
        false => *random.pick(&like),
    };
}

/// Counts at the limits: 1, 256, 257 and beyond.
fn resize(random: &mut Random, rows: &mut Vec<Row>) {
    let filler = rows[rows.len() - 1];
    let count = *random.pick(&[1, 2, 255, 256, 257, 300]);
    rows.resize(count, filler);
}

fn damage_header(random: &mut Random, reply: &mut Vec<u8>) {
    match random.below(6) {
        0 => {
            let count = *random.pick(&[0, 1, 256, 257, 65_535]);
            put_u16(reply, 4, count);
        }
        1 => reply[6 + random.below(2)] = random.between(1, 255) as u8,
        2 => reply.truncate(random.below(REPLY_HEAD + 1)),
        3 => reply.truncate(random.below(reply.len() + 1)),
        4 => reply.extend_from_slice(&[0; 8][..random.between(1, 8)]),
        _ => {
            let at = random.below(reply.len());
            reply[at] ^= 1 << random.below(8);
        }
    }
}

fn any_bytes(random: &mut Random) -> Vec<u8> {
    let mut bytes = vec![0; random.below(60)];
    random.fill(&mut bytes);
    bytes
}
