//! Targets: figures that may not pass a bar. Each has a line with its worst figure, and what misses it is listed.

/// A figure held against a bar.
struct Seen {
    target: String,
    bar: f64,
    figure: f64,
    of: String,
}

/// All figures that have a bar.
#[derive(Default)]
pub struct Targets {
    seen: Vec<Seen>,
}

impl Targets {
    /// Holds a figure against the bar of a target; gives whether it is within.
    pub fn hold(&mut self, target: &str, bar: f64, figure: f64, of: &str) -> bool {
        self.seen.push(Seen { target: target.to_string(), bar, figure, of: of.to_string() });
        is_met(bar, figure)
    }

    /// A line for each target, in the order in which they were met with.
    pub fn table(&self) -> String {
        let mut text = "| target | at most | worst | of | |\n|---|---:|---:|---|---|".to_string();
        let mut told: Vec<&str> = Vec::new();
        for Seen { target, bar, .. } in &self.seen {
            if told.contains(&&target[..]) {
                continue;
            }
            told.push(target);
            let of_target = || self.seen.iter().filter(|seen| seen.target == *target);
            let worst = of_target().max_by(|a, b| a.figure.total_cmp(&b.figure)).expect("this one is of it");
            let missed = of_target().filter(|seen| !is_met(*bar, seen.figure)).count();
            let verdict = if missed == 0 { "met".to_string() } else { format!("**MISSED** by {missed}") };
            let line = format!("| {target} | {} | {} | {} | {verdict} |", shown(*bar), shown(worst.figure), worst.of);
            text = format!("{text}\n{line}");
        }
        text
    }

    /// Each figure that misses its target.
    pub fn missed(&self) -> Vec<String> {
        let missed = self.seen.iter().filter(|seen| !is_met(seen.bar, seen.figure));
        missed
            .map(|Seen { target, bar, figure, of }| {
                format!("{target}: {} and not at most {}, {of}", shown(*figure), shown(*bar))
            })
            .collect()
    }
}

/// A figure that is none meets nothing.
fn is_met(bar: f64, figure: f64) -> bool {
    figure <= bar
}

/// Whole where it is large, else with two digits.
fn shown(figure: f64) -> String {
    if figure.abs() >= 100.0 {
        format!("{figure:.0}")
    } else {
        format!("{figure:.2}")
    }
}
