//! The tables of a run of the benchmark, and the targets that its figures are held against.

use crate::cases::{self, By, Case, FEWEST_ROWS};
use crate::measure::{figures, steps_of_loops, Figures, Growth, Times};
use crate::picture::Panel;
use crate::players::Given;
use crate::targets::Targets;

/// The library's time over the evaluator's.
const RATIO: f64 = 1.0;
/// The library's time over that at half the size.
const GROWTH: f64 = 2.3;
/// A step of the loop among most rows over one among fewest.
const LEVEL: f64 = 1.3;
/// The stack used by one call, in bytes.
const STACK: f64 = 65_536.0;

/// How the figures were come by, for the page.
pub const HOW: &str = "Medians of 201 calls, fewer where they take long, the three taking turns.";

/// Text that is printed as it comes, and kept.
#[derive(Default)]
pub struct Report {
    pub text: String,
}

impl Report {
    fn say(&mut self, line: &str) {
        println!("{line}");
        self.text.push_str(line);
        self.text.push('\n');
    }
}

/// All that was measured.
#[derive(Default)]
pub struct Measured {
    pub report: Report,
    pub targets: Targets,
    /// What the picture shows.
    pub panels: Vec<Panel>,
}

/// Measures everything and tells it; without the library's run nothing is told of runs.
pub fn measured() -> Result<Measured, String> {
    let mut all = Measured::default();
    let has_run = cfg!(feature = "run");
    all.entry("load", "load", &cases::loads())?;
    if has_run {
        all.entry("run", "run to the first call", &cases::runs())?;
        all.loops()?;
    }
    all.entry("reply", "reply to it", &cases::replies())?;
    all.report.say(&all.targets.table());
    Ok(all)
}

impl Measured {
    /// The table of an entry; its first case is what the picture shows, under that title.
    fn entry(&mut self, entry: &str, title: &'static str, cases: &[Case]) -> Result<(), String> {
        self.report.say(&format!(
            "| {entry} of | gave | rows | types | library | evaluator | ratio | limit | of limit | growth | by | stack |\n\
             |---|---|---:|---:|---:|---:|---:|---:|---:|---:|---|---:|"
        ));
        for (which, case) in cases.iter().enumerate() {
            let all = figures(case).map_err(|fault| format!("{entry}, {}: {fault}", case.name))?;
            for figures in &all {
                let line = self.line(entry, case, figures);
                self.report.say(&line);
            }
            if which == 0 {
                self.panels.push(Panel { title, points: all.iter().map(|f| (f.rows, f.times)).collect() });
            }
        }
        self.report.say("");
        Ok(())
    }

    /// A line of an entry's table, what misses a target in bold.
    fn line(&mut self, entry: &str, case: &Case, figures: &Figures) -> String {
        let Figures { size, rows, types, given, times, growth, stack } = figures;
        let (name, by) = (&case.name, case.by.words());
        let of = format!("{name}, {by} {size}");
        let mut held = |target: &str, bar, figure, text: String| {
            let met = self.targets.hold(&format!("{entry}: {target}"), bar, figure, &of);
            if met {
                text
            } else {
                format!("**{text}**")
            }
        };
        let ratio = held("time over the evaluator's", RATIO, times.ratio(), digits(times.ratio()));
        let growth = growth.map_or("-".to_string(), |Growth { of_call, of_step, more_steps }| {
            let [call, step] = [of_call, of_step].map(digits);
            match (case.each_step, more_steps) {
                (true, _) => {
                    let step = held(&format!("growth of a step, twice the {by}"), GROWTH, of_step, step);
                    format!("{call} a call, {step} a step")
                }
                (false, true) => {
                    let call = held(&format!("growth, twice the {by}"), GROWTH, of_call, call);
                    format!("{call} a call, {step} a step")
                }
                (false, false) => held(&format!("growth, twice the {by}"), GROWTH, of_call, call),
            }
        });
        let stack = held("bytes of stack", STACK, *stack as f64, stack.to_string());
        let by = if matches!(case.by, By::Rows | By::Types) { by.to_string() } else { format!("{by} {size}") };
        format!(
            "| {name} | {} | {rows} | {types} | {} | {} | {ratio} | {} | {:.1} | {growth} | {by} | {stack} |",
            words(entry, *given),
            digits(times.library),
            digits(times.evaluator),
            digits(times.limit),
            times.of_limit(),
        )
    }

    /// The table of a step of the small loop.
    fn loops(&mut self) -> Result<(), String> {
        self.report.say(&format!(
            "| a step of a small loop, ns | library | evaluator | ratio | limit | of limit | over {FEWEST_ROWS} rows |\n\
             |---|---:|---:|---:|---:|---:|---:|"
        ));
        for (place, behind) in [("behind", true), ("before", false)] {
            let loops = cases::loops(behind);
            let all = steps_of_loops(&loops).map_err(|fault| format!("loop {place} rows: {fault}"))?;
            for (each, times) in loops.iter().zip(&all) {
                let line = self.step(place, each.rows, times, times.library / all[0].library);
                self.report.say(&line);
            }
        }
        self.report.say("");
        Ok(())
    }

    /// A line of that table; level is the step's time over that of a step among the fewest rows.
    fn step(&mut self, place: &str, rows: usize, times: &Times, level: f64) -> String {
        let of = format!("{place} {rows} rows");
        let target = format!("a step {place} many rows, over one {place} {FEWEST_ROWS}");
        let is_level = rows == FEWEST_ROWS || self.targets.hold(&target, LEVEL, level, &of);
        self.targets.hold("a step of the loop: time over the evaluator's", RATIO, times.ratio(), &of);
        let [library, evaluator, limit] = [times.library, times.evaluator, times.limit].map(|micros| micros * 1e3);
        let level = if is_level { digits(level) } else { format!("**{level:.2}**") };
        let (ratio, of_limit) = (times.ratio(), times.of_limit());
        format!("| {of} | {library:.1} | {evaluator:.1} | {ratio:.3} | {limit:.1} | {of_limit:.1} | {level} |")
    }
}

fn digits(figure: f64) -> String {
    format!("{figure:.2}")
}

/// What a call gave, in short.
fn words(entry: &str, given: Given) -> String {
    const ANSWERS: [&str; 7] = ["VALUE", "WAITING", "SENT", "HELD", "BUDGET", "ROOM", "NUMBERS"];
    match given {
        [0, _, answer, _, steps] if entry == "run" => format!("{} after {steps}", ANSWERS[answer as usize]),
        [0, ..] => "accepted".to_string(),
        [refusal, place, ..] => format!("{refusal}, {place}"),
    }
}
