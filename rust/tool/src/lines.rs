//! Tables as lines: types as declarations, rows as a tree with their numbers; what cannot be read is told in few lines.

use std::fmt::Write;

use crate::bytes::{has_kind, Row};
use crate::shape::{stands, Stand};
use crate::words::{row_fields, type_fields, Words};

/// Rows deeper than this are set in no further, and their depth is told.
const DEEPEST_SET_IN: usize = 30;
/// Stretches of rows that cannot be read which are told one by one.
const STRETCHES_TOLD: usize = 4;
/// Rows of a tree that is not whole which say the same, one behind another, and are still told one by one.
const ALIKE_TOLD: usize = 3;

/// A row with its number, set in.
pub fn row_line(words: &Words, rows: &[Row], stand: &Stand, place: usize) -> String {
    let mut line = String::with_capacity(80);
    let _ = write!(line, "{place:4} | ");
    line.extend(std::iter::repeat_n("  ", stand.inset.min(DEEPEST_SET_IN)));
    words.tell_stated(&mut line, &rows[place]);
    if stand.inset > DEEPEST_SET_IN {
        let _ = write!(line, "   # depth {}", stand.inset);
    }
    line
}

/// All types as declarations; a bad one is marked and told by its fields.
pub fn type_lines(words: &Words, bad: Option<usize>) -> Vec<String> {
    let types = &words.types.rows;
    let line = |place: usize| match bad == Some(place) {
        true => format!("type t{place} = {}   # <-- here", type_fields(&types[place])),
        false => format!("type t{place} = {}", words.written(&types[place])),
    };
    let readable = |place: usize| types[place].is_readable() || bad == Some(place);
    let fields = |place: usize| type_fields(&types[place]);
    let lines = Table { count: types.len(), what: "type", readable, line, fields }.lines();
    // No good table has a type twice.
    without_repeats(lines, |a, b| types[a] == types[b] && bad != Some(a) && bad != Some(b), "# ")
}

/// A term as a tree; a bad row is marked. Rows that say the same, one behind another, are told in few lines if the tree is not whole.
pub fn term_lines(words: &Words, rows: &[Row], bad: Option<usize>, whole: bool) -> Vec<String> {
    let stands = stands(rows);
    let line = |place: usize| {
        let mut line = row_line(words, rows, &stands[place], place);
        if stands[place].behind_the_end {
            line += "   # behind the tree's end";
        }
        if bad == Some(place) {
            line += "   # <-- here";
        }
        line
    };
    let readable = |place: usize| has_kind(&rows[place]) || bad == Some(place);
    let fields = |place: usize| row_fields(&rows[place]);
    let lines = Table { count: rows.len(), what: "row", readable, line, fields }.lines();
    let mut shown = match whole {
        true => lines.into_iter().map(|(_, line)| line).collect(),
        false => without_repeats(lines, |a, b| rows[a] == rows[b] && bad != Some(a) && bad != Some(b), "     | # "),
    };
    if bad == Some(rows.len()) {
        shown.push(format!("{:4} | # <-- here the tree is unfinished", rows.len()));
    }
    shown
}

/// Few lines for many entries that say the same.
fn without_repeats(
    lines: Vec<(Option<usize>, String)>,
    same: impl Fn(usize, usize) -> bool,
    before: &str,
) -> Vec<String> {
    let alike = |a: Option<usize>, b: Option<usize>| matches!((a, b), (Some(a), Some(b)) if same(a, b));
    let mut shown = Vec::new();
    for stretch in lines.chunk_by(|a, b| alike(a.0, b.0)) {
        let told = if stretch.len() > ALIKE_TOLD + 1 { ALIKE_TOLD } else { stretch.len() };
        shown.extend(stretch[..told].iter().map(|(_, line)| line.clone()));
        if told < stretch.len() {
            shown.push(format!("{before}{} more say the same", stretch.len() - told));
        }
    }
    shown
}

/// A table as it is told: which entries can be read, each one's line, and its fields where it cannot be told otherwise.
struct Table<R, L, F> {
    count: usize,
    what: &'static str,
    readable: R,
    line: L,
    fields: F,
}

impl<R: Fn(usize) -> bool, L: Fn(usize) -> String, F: Fn(usize) -> String> Table<R, L, F> {
    /// A line, with its place, for each entry that can be read, and a few for the stretches between them that cannot.
    fn lines(&self) -> Vec<(Option<usize>, String)> {
        let mut lines = Vec::with_capacity(self.count);
        let (mut stretches, mut untold) = (0, 0);
        let mut place = 0;
        while place < self.count {
            if (self.readable)(place) {
                lines.push((Some(place), (self.line)(place)));
                place += 1;
                continue;
            }
            let end = (place..self.count).find(|&next| (self.readable)(next)).unwrap_or(self.count);
            stretches += 1;
            if stretches <= STRETCHES_TOLD {
                lines.push((None, self.stretch(place, end)));
            } else {
                untold += end - place;
            }
            place = end;
        }
        if untold > 0 {
            lines.push((None, format!("# {untold} more {}s cannot be read", self.what)));
        }
        lines
    }

    fn stretch(&self, from: usize, end: usize) -> String {
        let what = self.what;
        let which = if end - from == 1 { format!("{what} {from}") } else { format!("{what}s {from} to {}", end - 1) };
        format!("# {which} cannot be read: {}", (self.fields)(from).trim_start_matches("? "))
    }
}
