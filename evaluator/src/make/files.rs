//! Program files damaged so that each of refusals 2 to 9 comes, at many rows.

use crate::layout::*;
use crate::make::programs::Program;
use crate::random::Random;
use crate::rows::{decode_rows, kind, Row, Shape};
use crate::table::file_of;
use crate::types::{Part, TypeRow, FOREIGN, LIST, NATIVE, TUPLE};

/// Counts at and beyond the limits.
pub const COUNTS: [u16; 10] = [0, 1, 2, 255, 256, 257, 1_023, 1_024, 1_025, 65_535];

/// A file with one to three faults, which may hide each other.
pub fn damaged(random: &mut Random, base: &Program) -> Vec<u8> {
    let mut program = base.clone();
    let deeds = if random.one_in(4) { random.between(2, 3) } else { 1 };
    let mut bytes_too = false;
    for _ in 0..deeds {
        match random.below(12) {
            0 => bytes_too = true,
            1 | 2 => damage_types(random, &mut program.types),
            3 => damage_type_of_function(random, &mut program),
            4 => put_other_child(random, &program.types, &mut program.rows),
            _ => damage_rows(random, &program.types, &mut program.rows),
        }
    }
    let mut file = file_of(&program.types, &program.rows);
    if bytes_too {
        damage_bytes(random, &mut file);
    }
    file
}

/// Faults of the head and of the length: refusals 2 to 5; or of any byte.
pub fn damage_bytes(random: &mut Random, file: &mut Vec<u8>) {
    match random.below(9) {
        0 => file[random.below(3)] ^= 1 << random.below(8),
        1 => file[3 + random.below(2)] ^= 1 << random.below(8),
        2 => {
            let at = 3 + random.below(7);
            file[at] = random.word() as u8;
        }
        3 => {
            let at = 6 + 2 * random.below(2);
            let count = *random.pick(&COUNTS);
            put_u16(file, at, count);
            if random.one_in(3) {
                file[3] = 2;
            }
        }
        4 => {
            file.truncate(random.below(FILE_HEAD + 4));
            if !file.is_empty() && random.one_in(2) {
                file[0] = random.word() as u8;
            }
        }
        5 => file.truncate(random.below(file.len() + 1)),
        6 => {
            let more = random.between(1, 40);
            file.resize(file.len() + more, random.word() as u8);
        }
        7 => file[5] = random.between(1, 255) as u8,
        _ => {
            let at = random.below(file.len());
            file[at] ^= 1 << random.below(8);
        }
    }
}

/// Faults of the type table: refusal 6, or rows that no longer fit it.
pub fn damage_types(random: &mut Random, types: &mut Vec<TypeRow>) {
    let place = random.below(types.len());
    let smaller = random.below(place.max(1)) as u16;
    let row = &mut types[place];
    match random.below(17) {
        0 => row.form = random.below(10) as u8,
        1 => row.n = random.below(11) as u8,
        2 => row.result = random.below(place + 3) as u16,
        3 => row.pairs[random.below(8)].name = random.below(6) as u16,
        4 => row.pairs[random.below(8)].ty = random.below(place + 3) as u16,
        5 => row.pairs[7] = Part { name: random.below(2) as u16, ty: random.below(2) as u16 },
        // A function of the other form; a name or a part changed.
        6 if row.is_function() => row.form = if row.form == NATIVE { FOREIGN } else { NATIVE },
        7 if row.n > 0 => row.pairs[random.below(row.parts().len())].name = random.between(1, 14) as u16,
        8 if row.n > 0 => row.pairs[random.below(row.parts().len())].ty = smaller,
        9 if row.n > 1 => row.pairs[1].name = row.pairs[0].name,
        10 => row.result = place as u16,
        11 => row.result = smaller,
        // Rows at the end that nothing needs: a copy, or a foreign function over whatever is there.
        12 => types.push(types[place]),
        13 | 14 => {
            let function = types.iter().position(|row| row.is_function()).unwrap_or(place) as u16;
            let holder = match random.below(3) {
                0 => TypeRow::list(function),
                1 => TypeRow::of_parts(TUPLE, &[Part { name: 0, ty: place as u16 }, Part { name: 0, ty: function }], 0),
                _ => TypeRow::of_parts(FOREIGN, &[], function),
            };
            types.push(holder);
            let last = types.len() as u16 - 1;
            types.push(match random.below(3) {
                0 => TypeRow::of_parts(FOREIGN, &[Part { name: 1, ty: last }], smaller),
                1 => TypeRow::of_parts(FOREIGN, &[Part { name: 1, ty: smaller }], last),
                _ => TypeRow::list(last),
            });
        }
        15 => types.swap(place, usize::from(smaller)),
        _ => {
            let other = random.below(types.len());
            types[place] = types[other];
        }
    }
}

/// Faults of the term rows: refusals 7, 8 and 9.
pub fn damage_rows(random: &mut Random, types: &[TypeRow], rows: &mut Vec<Row>) {
    let place = random.below(rows.len());
    let old = rows[place];
    let type_count = types.len();
    let is_leaf = old.children() == 0;
    match random.below(22) {
        0 => rows[place].kind = random.below(22) as u8,
        1 => rows[place].n = if random.one_in(2) { random.below(11) as u8 } else { random.word() as u8 },
        2 => rows[place].ty = (type_count + random.below(3)) as u16,
        3 => rows[place].word = [1, 65_536, random.word() as u32, 0][random.below(4)],
        4 => {
            rows.remove(place);
        }
        5 => {
            rows.pop();
        }
        6 => rows.push(*random.pick(&[old, Row { kind: kind::TRUE, n: 0, ty: old.ty, word: 0 }])),
        7 => rows.insert(place, old),
        8 => {
            let other = random.below(rows.len());
            rows.swap(place, other);
        }
        // A future in place of a subtree, of the same type or of any.
        9 => put_leaf(rows, place, Row { kind: kind::FUTURE, n: 0, ty: old.ty, word: random.between(1, 3) as u32 }),
        10 => {
            put_leaf(rows, place, Row { kind: kind::FUTURE, n: 0, ty: random.below(type_count) as u16, word: 65_535 })
        }
        11 => rows[place].ty = random.below(type_count) as u16,
        12 => {
            if let Some(ty) = same_form(random, types, old.ty) {
                rows[place].ty = ty;
            }
        }
        // A leaf that keeps its own rule but not its parent's.
        13 | 14 if is_leaf => {
            let ty = random.below(type_count) as u16;
            rows[place] = literal(types[usize::from(ty)].form, ty, old.word);
        }
        // A name that is free, bound otherwise, or bound by chance.
        15 | 16 if is_leaf => {
            rows[place] = Row { kind: kind::VARIABLE, n: 0, ty: old.ty, word: random.between(1, 12) as u32 };
        }
        // Mask and place, within and beyond; an argument more.
        17 => change_any(random, rows, kind::ZIP, |random, row| row.n ^= 1 << random.below(8)),
        18 => change_any(random, rows, kind::ZIP, |_, row| row.n = 0),
        19 => {
            let which = *random.pick(&[kind::PROJECT, kind::LIST_PROJECT]);
            change_any(random, rows, which, |random, row| row.n = random.below(10) as u8);
        }
        20 => add_argument(random, types, rows),
        _ => change_any(random, rows, kind::LET, |random, row| row.word = random.between(1, 12) as u32),
    }
    if rows.is_empty() {
        rows.push(old);
    }
}

/// The type of a fix or zip, changed where only that row's own rule looks.
fn damage_type_of_function(random: &mut Random, program: &mut Program) {
    let made = |row: &Row| row.kind == kind::FIX || row.kind == kind::ZIP;
    let types: Vec<u16> = program.rows.iter().filter(|row| made(row)).map(|row| row.ty).collect();
    if types.is_empty() {
        return damage_types(random, &mut program.types);
    }
    let place = usize::from(*random.pick(&types));
    let smaller = random.below(place.max(1)) as u16;
    let Some(row) = program.types.get_mut(place) else {
        return;
    };
    let part = random.below(row.parts().len());
    match random.below(4) {
        0 => row.form ^= NATIVE ^ FOREIGN,
        1 if row.n > 0 => row.pairs[part].name = random.between(1, 14) as u16,
        2 if row.n > 0 => row.pairs[part].ty = smaller,
        _ => row.result = smaller,
    }
}

/// A child of if, isnil, project or list project that keeps its own rule but not its parent's.
fn put_other_child(random: &mut Random, types: &[TypeRow], rows: &mut Vec<Row>) {
    let looks = |row: &Row| matches!(row.kind, kind::IF | kind::ISNIL | kind::PROJECT | kind::LIST_PROJECT);
    let places: Vec<usize> = (0..rows.len()).filter(|&place| looks(&rows[place])).collect();
    if places.is_empty() {
        return damage_rows(random, types, rows);
    }
    let place = *random.pick(&places);
    let child = Shape::of(rows).child(place, random.below(rows[place].children()));
    let ty = random.below(types.len()) as u16;
    if child < rows.len() {
        put_leaf(rows, child, literal(types[usize::from(ty)].form, ty, 1));
    }
}

/// A childless row in place of a whole subtree.
fn put_leaf(rows: &mut Vec<Row>, place: usize, leaf: Row) {
    let end = Shape::of(rows).end(place);
    rows.splice(place..end.max(place + 1), [leaf]);
}

/// A childless row that fits a type of the form, where there is one.
fn literal(form: u8, ty: u16, word: u32) -> Row {
    match form {
        1 | 2 => Row { kind: form, n: 0, ty, word },
        LIST => Row { kind: kind::NIL, n: 0, ty, word: 0 },
        FOREIGN => Row { kind: kind::FOREIGN, n: 0, ty, word: 1 },
        _ => Row { kind: kind::TRUE, n: 0, ty, word: 0 },
    }
}

/// Another type of the same form.
fn same_form(random: &mut Random, types: &[TypeRow], ty: u16) -> Option<u16> {
    let form = types.get(usize::from(ty))?.form;
    let like: Vec<u16> = (0..types.len() as u16).filter(|&k| k != ty && types[usize::from(k)].form == form).collect();
    if like.is_empty() {
        None
    } else {
        Some(*random.pick(&like))
    }
}

/// Changes some row of a kind, if there is one.
fn change_any(random: &mut Random, rows: &mut [Row], kind: u8, change: impl Fn(&mut Random, &mut Row)) {
    let places: Vec<usize> = (0..rows.len()).filter(|&place| rows[place].kind == kind).collect();
    if !places.is_empty() {
        let place = *random.pick(&places);
        change(random, &mut rows[place]);
    }
}

/// One argument more at the end of some application.
fn add_argument(random: &mut Random, types: &[TypeRow], rows: &mut Vec<Row>) {
    let places: Vec<usize> =
        (0..rows.len()).filter(|&place| rows[place].kind == kind::APPLY && rows[place].n < 8).collect();
    if places.is_empty() {
        return;
    }
    let place = *random.pick(&places);
    let end = Shape::of(rows).end(place);
    rows[place].n += 1;
    let ty = random.below(types.len()) as u16;
    rows.insert(end, literal(types[usize::from(ty)].form, ty, 1));
}

/// A program file read back as types and rows, if its counts fit its length: what a fixed file is damaged from.
pub fn parts_of(file: &[u8]) -> Option<Program> {
    if file.len() < FILE_HEAD {
        return None;
    }
    let types_end = FILE_HEAD + usize::from(u16_at(file, 6)) * TYPE_BYTES;
    let types = file.get(FILE_HEAD..types_end)?.chunks_exact(TYPE_BYTES).map(TypeRow::decode).collect();
    let rows = decode_rows(file.get(types_end..)?);
    Some(Program { types, rows, open: vec![] })
}
