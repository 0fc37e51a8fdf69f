//! The yardstick's output held against the project's bars: the library beside a fast plain evaluator, *resumed*.

use crate::targets::Targets;

/// The library's time over that of *resumed*.
const RATIO: f64 = 1.5;
/// A load's time over that of half the rows or types.
const GROWTH: f64 = 2.3;
/// A step of the loop among 2,000 rows over one among 20.
const LEVEL: f64 = 1.3;

/// The yardstick's column of names.
const WIDE: usize = 48;

/// The bars' verdict on a table; an error if it is none, or not whole, or has a wrong result.
pub fn judged(text: &str) -> Result<Targets, String> {
    if let Some(wrong) =
        text.lines().find(|line| line.split_whitespace().any(|word| word == "WRONG") && !line.starts_with("worst"))
    {
        return Err(format!("a result is wrong: {wrong}"));
    }
    let mut targets = Targets::default();
    for line in section(text, "case ")? {
        let (name, words) = columns(line)?;
        // Behind the name: rows, answer (of one word or two), then seven numbers, the last but one being the ratio.
        let ratio = number(words.iter().rev().nth(1), line)?;
        targets.hold(&format!("{}, over resumed", group(name)), RATIO, ratio, name);
    }
    for line in section(text, "ns a row ")? {
        let (name, words) = columns(line)?;
        let growth = 2.0 * number(words.get(2), line)?;
        let what = if name.starts_with('g') { "types" } else { "rows" };
        targets.hold(&format!("load: twice the {what}, growth"), GROWTH, growth, name);
    }
    let steps = section(text, "ns a step ")?;
    let step = |place: &str| {
        let line = steps.iter().find(|line| line.starts_with(place)).ok_or(format!("no step {place}"))?;
        number(columns(line)?.1.first(), line)
    };
    for place in ["behind", "before"] {
        let level = step(&format!("{place} 2,000 rows"))? / step(&format!("{place} 20 rows"))?;
        targets.hold(&format!("a step {place} 2,000 rows over one {place} 20"), LEVEL, level, "e loop");
    }
    Ok(targets)
}

/// The lines of one of the yardstick's tables, by how its head begins.
fn section<'a>(text: &'a str, head: &str) -> Result<Vec<&'a str>, String> {
    let mut lines = text.lines().skip_while(|line| !line.starts_with(head));
    lines.next().ok_or(format!("this is no whole table of the yardstick: it has no line `{head}...`"))?;
    let is_head = |line: &&str| line.starts_with(' ');
    Ok(lines.skip_while(is_head).take_while(|line| !line.is_empty()).collect())
}

/// The name of a line, and the words behind it.
fn columns(line: &str) -> Result<(&str, Vec<&str>), String> {
    let (name, rest) = line.split_at_checked(WIDE).ok_or(format!("a line too short: {line}"))?;
    Ok((name.trim_end(), rest.split_whitespace().collect()))
}

fn number(word: Option<&&str>, line: &str) -> Result<f64, String> {
    let number = word.and_then(|word| word.parse().ok());
    number.ok_or(format!("the library has no figure here, was it measured with --whole? {line}"))
}

/// Which bar a case of the yardstick stands under.
fn group(name: &str) -> &'static str {
    match name {
        _ if name.contains(" calls, each") => "whole routines",
        _ if name.ends_with(": run 0") => "runs of budget 0",
        _ if name.contains("run ") => "runs",
        _ if name.contains("load") => "loads",
        _ => "replies",
    }
}

#[cfg(test)]
mod tests {
    use super::*;

    /// A table of the yardstick's form: a load at this ratio, its growth a row, and steps of the loop.
    fn table(ratio: &str, growth: &str) -> String {
        let line = |name: &str, rest: &str| format!("{name:WIDE$} {rest}\n");
        let mut text = line("case", "rows answer steps library resumed restarting limit /resumed /restart.");
        text += &line("f load refused 9 at row 1,023", &format!("1024 refused 9 0 100 90 90 10 {ratio} 1.00"));
        text += "\nns a step of the loop\n";
        for place in ["behind", "before"] {
            text += &line(&format!("{place} 20 rows"), "200.0 30.0 40.0");
            text += &line(&format!("{place} 2,000 rows"), "220.0 30.0 40.0");
        }
        text += "\nns a row (g: a type) of load\n    half whole whole/half\n";
        text + &line("g types of two parts", &format!("10.00 11.00 {growth} 10.00 10.00 1.00"))
    }

    #[test]
    fn figures_are_held_against_the_bars() {
        let missed = |text: &str| judged(text).map(|targets| targets.missed().len());
        assert_eq!(missed(&table("1.50", "1.15")), Ok(0));
        assert_eq!(missed(&table("1.51", "1.16")), Ok(2));
    }

    #[test]
    fn a_table_that_is_wrong_or_not_whole_is_refused() {
        assert!(judged(&table("-", "1.00")).is_err());
        assert!(judged(&format!("{}WRONG f load", table("1.00", "1.00"))).is_err());
        assert!(judged(table("1.00", "1.00").split("ns a row").next().unwrap_or("")).is_err());
    }
}
