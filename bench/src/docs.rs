//! docs/BENCHMARK.md: what is written anew between two of its lines.

/// A part of the page: everything between its first and its last line.
pub struct Part {
    first: &'static str,
    last: &'static str,
}

pub const FIGURES: Part =
    Part { first: "<!-- figures, by ./benchmark --docs -->", last: "<!-- end of the figures -->" };
pub const YARDSTICK: Part = Part {
    first: "<!-- the yardstick's table, by ./benchmark --yardstick -->",
    last: "<!-- end of the yardstick's table -->",
};

/// Replaces a part of a page by this text.
pub fn replace(file: &str, part: &Part, text: &str) -> Result<(), String> {
    let fault = |error| format!("{file}: {error}");
    let page = std::fs::read_to_string(file).map_err(fault)?;
    let page = replaced(&page, part, text).ok_or_else(|| format!("{file} has no part {} {}", part.first, part.last))?;
    std::fs::write(file, page).map_err(fault)
}

fn replaced(page: &str, Part { first, last }: &Part, text: &str) -> Option<String> {
    let (before, rest) = page.split_once(first)?;
    let (_, behind) = rest.split_once(last)?;
    Some(format!("{before}{first}\n\n{}\n\n{last}{behind}", text.trim()))
}

#[cfg(test)]
mod tests {
    use super::*;

    #[test]
    fn a_part_is_replaced_and_the_rest_stands() {
        let part = Part { first: "<a>", last: "</a>" };
        assert_eq!(replaced("x <a>old</a> y", &part, "new\n").as_deref(), Some("x <a>\n\nnew\n\n</a> y"));
        let again = replaced("x <a>\n\nnew\n\n</a> y", &part, "new");
        assert_eq!(again.as_deref(), Some("x <a>\n\nnew\n\n</a> y"));
        assert_eq!(replaced("x <a>old y", &part, "new"), None);
    }
}
