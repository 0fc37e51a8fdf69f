//! Rows as a tree: where each subtree ends, which row is whose parent, and what refusals 7 and 13 find wrong with it.

use crate::bytes::{child_count, has_kind, kind, Row, MAX_NAME};

/// Where a row stands in the tree.
#[derive(Clone, Copy, Debug)]
pub struct Stand {
    /// The parent and the place among its children; nothing for the first row and for rows behind the tree's end.
    pub parent: Option<(usize, usize)>,
    /// The row behind the subtree.
    pub end: usize,
    /// How far to set the row in: a list's tail and a let's body stand as far left as their parent.
    pub inset: usize,
    pub behind_the_end: bool,
}

/// The stand of every row, whatever the rows are worth.
pub fn stands(rows: &[Row]) -> Vec<Stand> {
    let mut stands: Vec<Stand> = Vec::with_capacity(rows.len());
    // The rows around the present one with the number of their children that are still to come.
    let mut around: Vec<(usize, usize)> = Vec::new();
    for (place, row) in rows.iter().enumerate() {
        let parent = around.last_mut().map(|(parent, owed)| {
            *owed -= 1;
            (*parent, child_count(&rows[*parent]) - *owed - 1)
        });
        let inset = parent.map_or(0, |(parent, which)| {
            let flat = which == 1 && matches!(rows[parent].kind, kind::CONS | kind::LET);
            stands[parent].inset + usize::from(!flat)
        });
        let behind_the_end = place > 0 && parent.is_none();
        stands.push(Stand { parent, end: place + 1, inset, behind_the_end });
        if child_count(row) > 0 && !behind_the_end {
            around.push((place, child_count(row)));
        }
        while let Some(&(parent, 0)) = around.last() {
            around.pop();
            stands[parent].end = place + 1;
        }
    }
    for (parent, _) in around {
        stands[parent].end = rows.len();
    }
    stands
}

/// The rows of a row's children, as far as they are there.
pub fn children_of(rows: &[Row], stands: &[Stand], place: usize) -> Vec<usize> {
    let mut children = Vec::new();
    let mut at = place + 1;
    while children.len() < child_count(&rows[place]) && at < stands[place].end {
        children.push(at);
        at = stands[at].end;
    }
    children
}

/// What is wrong with a row by its own kind and fields.
pub fn field_fault(row: Row) -> Option<String> {
    let (n_from, n_to) = match row.kind {
        kind::APPLY => (0, 8),
        kind::ZIP => (1, 255),
        kind::TUPLE | kind::PROJECT | kind::LIST_PROJECT => (1, 8),
        _ => (0, 0),
    };
    let (word_from, word_to, meant) = match row.kind {
        kind::STR | kind::FILE => (0, u32::MAX, ""),
        kind::VARIABLE | kind::LET => (1, MAX_NAME, "a name"),
        kind::FOREIGN => (1, MAX_NAME, "a tool"),
        kind::FUTURE => (1, MAX_NAME, "a call number"),
        _ => (0, 0, ""),
    };
    if !has_kind(&row) {
        return Some(format!("kind {} is unknown; kinds are 1 to 19", row.kind));
    }
    if !(n_from..=n_to).contains(&row.n) {
        let wanted = match row.kind {
            kind::ZIP => "a mask of 1 to 255".to_string(),
            _ if n_to == 0 => "0, being unused in this kind".to_string(),
            _ => format!("{n_from} to {n_to}"),
        };
        return Some(format!("field n is {}; it must be {wanted}", row.n));
    }
    if !(word_from..=word_to).contains(&row.word) {
        let wanted = match word_to {
            0 => "0, being unused in this kind".to_string(),
            _ => format!("{meant}, 1 to 65,535"),
        };
        return Some(format!("field word is {}; it must be {wanted}", row.word));
    }
    None
}

/// The first row that is malformed, and why: kind, field, type number, behind the tree's end, tree unfinished.
pub fn shape_fault(rows: &[Row], type_count: usize) -> Option<(usize, String)> {
    let mut owed = 1;
    for (place, row) in rows.iter().enumerate() {
        if let Some(why) = field_fault(*row) {
            return Some((place, why));
        }
        if usize::from(row.ty) >= type_count {
            return Some((
                place,
                format!("it states type {}; the table has {type_count} types, counted from 0", row.ty),
            ));
        }
        if owed == 0 {
            return Some((place, "it stands behind the tree's end: the rows before it are a whole routine".into()));
        }
        owed = owed - 1 + child_count(row);
    }
    let more = if owed == 1 { "one row or tree is".to_string() } else { format!("{owed} rows or trees are") };
    (owed > 0).then(|| (rows.len(), format!("the tree is unfinished: {more} missing behind the last row")))
}
