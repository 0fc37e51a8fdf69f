//! Values on one line: `str 7`, `[true, false]`, `{str 1, str 2}`. What tools are given, and what they may answer.

use crate::bytes::{child_count, kind, Row};

/// The trees of some rows, each on one line; rows that are no whole value are told as far as they go.
pub fn compact(rows: &[Row]) -> Vec<String> {
    let mut trees = Vec::new();
    let mut at = 0;
    while at < rows.len() {
        let (tree, end) = tree(rows, at);
        trees.push(tree);
        at = end;
    }
    trees
}

/// The tree that begins at a row, and the row behind it. A list's tail is no level of its own, and tuples and lists below each
/// other are of ever smaller types, so there are at most 256 levels.
fn tree(rows: &[Row], at: usize) -> (String, usize) {
    let Some(row) = rows.get(at) else {
        return ("?".to_string(), at);
    };
    match row.kind {
        kind::STR => (format!("str {}", row.word), at + 1),
        kind::FILE => (format!("file {}", row.word), at + 1),
        kind::TRUE => ("true".to_string(), at + 1),
        kind::FALSE => ("false".to_string(), at + 1),
        kind::FUTURE => (format!("future {}", row.word), at + 1),
        kind::TUPLE => {
            let mut parts = Vec::new();
            let mut end = at + 1;
            for _ in 0..child_count(row) {
                let (part, behind) = tree(rows, end);
                parts.push(part);
                end = behind;
            }
            (format!("{{{}}}", parts.join(", ")), end)
        }
        kind::NIL | kind::CONS => list(rows, at),
        kind => (format!("? {}", crate::words::kind_name(kind)), at + 1),
    }
}

fn list(rows: &[Row], mut at: usize) -> (String, usize) {
    let mut elements = Vec::new();
    while rows.get(at).is_some_and(|row| row.kind == kind::CONS) {
        let (element, end) = tree(rows, at + 1);
        elements.push(element);
        at = end;
    }
    match rows.get(at) {
        Some(row) if row.kind == kind::NIL => (format!("[{}]", elements.join(", ")), at + 1),
        _ => {
            let (tail, end) = tree(rows, at);
            (format!("[{}, .. {tail}]", elements.join(", ")), end)
        }
    }
}
