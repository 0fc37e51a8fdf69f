//! Measures loads, runs and replies by the proved library beside the independent evaluator's and beside the limit, at
//! several sizes, and prints a table of each. Ends with 1 if a target is missed.

mod cases;
mod docs;
mod measure;
mod picture;
mod players;
mod stack;
mod tables;
mod targets;
mod terms;
mod timing;
mod yardstick;

use std::io::Read;
use std::process::ExitCode;

use targets::Targets;

/// Where this is written to, seen from this crate's folder.
const PICTURE: &str = "../docs/benchmark.svg";
const PAGE: &str = "../docs/BENCHMARK.md";

fn main() -> ExitCode {
    let words: Vec<String> = std::env::args().skip(1).collect();
    let wants = |word: &str| words.iter().any(|given| given == word);
    let known = words.iter().all(|word| word == "--picture" || word == "--docs");
    let done = if words == ["--yardstick"] {
        held_against_yardstick()
    } else if known {
        evaluator::deep::on_deep_stack(|| measure(wants("--picture"), wants("--docs")))
    } else {
        eprintln!("usage: bench [--picture] [--docs], or bench --yardstick < TABLE");
        return ExitCode::from(2);
    };
    match done.map(|targets| targets.missed()) {
        Ok(missed) if missed.is_empty() => {
            println!("All targets are met.");
            ExitCode::SUCCESS
        }
        Ok(missed) => {
            println!("TARGETS MISSED: {}.", missed.len());
            missed.iter().for_each(|line| println!("  {line}"));
            ExitCode::FAILURE
        }
        Err(fault) => {
            eprintln!("{fault}");
            ExitCode::FAILURE
        }
    }
}

/// Prints the tables; draws the picture and renews the page's figures from the same run, if that is wanted.
fn measure(with_picture: bool, with_docs: bool) -> Result<Targets, String> {
    println!("Microseconds a call, medians; docs/BENCHMARK.md says what each column is worth.\n");
    let all = tables::measured()?;
    if with_picture {
        std::fs::write(PICTURE, picture::svg(&all.panels)).map_err(|error| format!("{PICTURE}: {error}"))?;
        println!("\nDrew docs/benchmark.svg.");
    }
    if with_docs {
        let cores = std::thread::available_parallelism().map_or(1, |count| count.get());
        let run = format!("One run, {cores} cores, {}. {}", std::env::consts::ARCH, tables::HOW);
        docs::replace(PAGE, &docs::FIGURES, &format!("{run}\n\n{}", all.report.text))?;
        println!("\nWrote the figures of docs/BENCHMARK.md.");
    }
    println!();
    Ok(all.targets)
}

/// Reads the yardstick's output, puts it into the page and holds it against the bars.
fn held_against_yardstick() -> Result<Targets, String> {
    let mut text = String::new();
    std::io::stdin().read_to_string(&mut text).map_err(|error| error.to_string())?;
    let targets = yardstick::judged(&text)?;
    println!("{}\n", targets.table());
    docs::replace(PAGE, &docs::YARDSTICK, &format!("{}\n\n```\n{}\n```", targets.table(), text.trim_end()))?;
    println!("Wrote the yardstick's table of docs/BENCHMARK.md.\n");
    Ok(targets)
}
