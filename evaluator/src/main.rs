//! The commands: comparing machines, telling faults and frequencies, the bench runner.

use std::io::{self, Read, Write};
use std::process::ExitCode;
use std::time::{Duration, Instant};

use evaluator::bench_runner::bench_line;
use evaluator::compare::{
    compare_changed, compare_load, compare_session, fixed_loads, group_acts, tower_loads, Lent, LOADS_A_GROUP,
};
use evaluator::deep::on_deep_stack;
use evaluator::fault::Fault;
use evaluator::faults::look_for;
use evaluator::layout::{RECORD_BYTES, WORK_BYTES};
use evaluator::machine::{Evaluator, Machine};
use evaluator::make::kept::{other_values, three_records, Kept};
use evaluator::make::sessions::Act;

const HELP: &str = "\
evaluator compare-loads    [--count N] [--seconds S] [--seed S] [--group G] [--against M] [--announce]
                           [--skip-fixed] [--skip-towers]
evaluator compare-sessions [--count N] [--seconds S] [--seed S] [--from N] [--against M] [--announce]
evaluator compare-records  [--all] [--record early|middle|late] [--from BYTE] [--count BYTES] [--against M]
evaluator faults           [--count N] [--seed S]
evaluator frequencies      [--sessions N] [--groups N] [--seed S]
evaluator bench-runner     < FILE

M is `evaluator`, the name of a fault, or `library` (with the feature of that name).
--announce names each group or session before it is begun, for a machine that may crash or not return.
";

fn main() -> ExitCode {
    let words: Vec<String> = std::env::args().skip(1).collect();
    match on_deep_stack(|| command(&words, &mut io::stdout().lock())) {
        Ok(code) => code,
        Err(error) if error.kind() == io::ErrorKind::BrokenPipe => ExitCode::SUCCESS,
        Err(error) => {
            let _ = writeln!(io::stderr(), "evaluator: {error}");
            ExitCode::FAILURE
        }
    }
}

fn command(words: &[String], out: &mut dyn Write) -> io::Result<ExitCode> {
    let Some((name, rest)) = words.split_first() else {
        write!(out, "{HELP}")?;
        return Ok(ExitCode::FAILURE);
    };
    let options = Options(rest);
    options.check(name)?;
    match name.as_str() {
        "compare-loads" => compare_loads(&options, out),
        "compare-sessions" => compare_sessions(&options, out),
        "compare-records" => compare_records(&options, out),
        "faults" => show_faults(&options, out),
        "frequencies" => {
            let seed = options.number("--seed")?.unwrap_or(1);
            let sessions = options.number("--sessions")?.unwrap_or(20_000);
            let groups = options.number("--groups")?.unwrap_or(5_000);
            evaluator::frequencies::print(seed, sessions, groups, out)?;
            Ok(ExitCode::SUCCESS)
        }
        "bench-runner" => {
            let mut file = Vec::new();
            io::stdin().lock().read_to_end(&mut file)?;
            writeln!(out, "{}", bench_line(&file))?;
            Ok(ExitCode::SUCCESS)
        }
        _ => {
            write!(out, "{HELP}")?;
            Ok(ExitCode::FAILURE)
        }
    }
}

/// The words after a command.
struct Options<'a>(&'a [String]);

impl Options<'_> {
    /// Refuses options that the command does not know.
    fn check(&self, command: &str) -> io::Result<()> {
        let known: &[&str] = match command {
            "compare-loads" => &[
                "--count",
                "--seconds",
                "--seed",
                "--group",
                "--against",
                "--announce",
                "--skip-fixed",
                "--skip-towers",
            ],
            "compare-sessions" => &["--count", "--seconds", "--seed", "--from", "--against", "--announce"],
            "compare-records" => &["--all", "--record", "--from", "--count", "--against"],
            "faults" => &["--count", "--seed"],
            "frequencies" => &["--sessions", "--groups", "--seed"],
            _ => &[],
        };
        let unknown = self.0.iter().find(|word| word.starts_with("--") && !known.contains(&word.as_str()));
        unknown.map_or(Ok(()), |word| Err(bad_input(format!("{command} knows no option `{word}`"))))
    }

    fn has(&self, name: &str) -> bool {
        self.0.iter().any(|word| word == name)
    }

    fn word(&self, name: &str) -> Option<&str> {
        let at = self.0.iter().position(|word| word == name)?;
        self.0.get(at + 1).map(String::as_str)
    }

    /// Names what is begun next, if that is wanted.
    fn announce(&self, what: &str, number: u64) {
        if self.has("--announce") {
            let _ = writeln!(io::stderr(), "{what} {number}");
        }
    }

    fn number(&self, name: &str) -> io::Result<Option<u64>> {
        let Some(word) = self.word(name) else {
            return Ok(None);
        };
        let digits = word.replace(['_', ','], "");
        digits.parse().map(Some).map_err(|_| bad_input(format!("{name} needs a number, not `{word}`")))
    }

    /// The machine to compare with the evaluator.
    fn machine(&self) -> io::Result<Box<dyn Machine>> {
        let name = self.word("--against").unwrap_or(DEFAULT_MACHINE);
        #[cfg(feature = "library")]
        if name == "library" {
            return Ok(Box::new(evaluator::machine::library::Library));
        }
        if name == "evaluator" {
            return Ok(Box::new(Evaluator::TRUE));
        }
        let fault = Fault::ALL.iter().find(|fault| format!("{fault:?}") == name);
        match fault {
            Some(&fault) => Ok(Box::new(Evaluator::bent(fault))),
            None => Err(bad_input(format!("there is no machine `{name}`"))),
        }
    }

    /// When to stop: after a count, after a time, or both; a default count if neither is given.
    fn end(&self, default: u64) -> io::Result<End> {
        let seconds = self.number("--seconds")?;
        let count = self.number("--count")?;
        let most = count.unwrap_or(if seconds.is_some() { u64::MAX } else { default });
        Ok(End { start: Instant::now(), most, time: seconds.map(Duration::from_secs), shown: Duration::ZERO })
    }

    /// For what has an end of its own.
    fn end_never(&self) -> End {
        End { start: Instant::now(), most: u64::MAX, time: None, shown: Duration::ZERO }
    }
}

const DEFAULT_MACHINE: &str = if cfg!(feature = "library") { "library" } else { "evaluator" };

fn bad_input(words: String) -> io::Error {
    io::Error::new(io::ErrorKind::InvalidInput, words)
}

/// The end of a long comparison, and its progress.
struct End {
    start: Instant,
    most: u64,
    time: Option<Duration>,
    shown: Duration,
}

impl End {
    fn reached(&mut self, done: u64, what: &str) -> bool {
        let passed = self.start.elapsed();
        if passed > self.shown + Duration::from_secs(10) {
            self.shown = passed;
            let _ = writeln!(io::stderr(), "{done} {what} in {} s", passed.as_secs());
        }
        done >= self.most || self.time.is_some_and(|time| passed >= time)
    }
}

/// Loads alone: the fixed ones first, then group after group of one base and its damaged copies.
fn compare_loads(options: &Options, out: &mut dyn Write) -> io::Result<ExitCode> {
    let seed = options.number("--seed")?.unwrap_or(1);
    let only_group = options.number("--group")?;
    let mut other = options.machine()?;
    let mut own = Evaluator::TRUE;
    let name = other.name();
    let mut machines: [&mut dyn Machine; 2] = [&mut own, &mut *other];
    let mut end = options.end(100_000)?;
    let fresh = || Lent { record: vec![0; RECORD_BYTES], work: vec![] };
    let mut lents = [fresh(), fresh()];
    let (mut done, mut accepted) = (0, 0);
    let mut counted = |given| match given {
        evaluator::compare::Given::Verdict(verdict) => {
            accepted += u64::from(verdict.refusal == 0);
            1
        }
        _ => 0,
    };

    let mut fixed = Vec::new();
    if !options.has("--skip-fixed") && only_group.is_none() {
        fixed.extend(fixed_loads());
    }
    if !options.has("--skip-towers") && only_group.is_none() {
        fixed.extend(tower_loads());
    }
    for load in fixed {
        if load.words.contains("tower") {
            let _ = writeln!(io::stderr(), "loading {}", load.words);
        }
        let act = Act::Load(load.file);
        match compare_load(&act, &mut lents, &mut machines, &|| format!("compare-loads ({})", load.words)) {
            Ok(given) => done += counted(given),
            Err(difference) => return found(out, &difference),
        }
        if end.reached(done, "loads") {
            break;
        }
    }
    let first = only_group.unwrap_or(0);
    let last = only_group.map_or(u64::MAX, |group| group + 1);
    'groups: for group in first..last {
        lents = [fresh(), fresh()];
        options.announce("group", group);
        for act in group_acts(seed, group) {
            if end.reached(done, "loads") {
                break 'groups;
            }
            let repeat = || format!("compare-loads --seed {seed} --group {group} --count {LOADS_A_GROUP}");
            match compare_load(&act, &mut lents, &mut machines, &repeat) {
                Ok(given) => done += counted(given),
                Err(difference) => return found(out, &difference),
            }
        }
    }
    let seconds = end.start.elapsed().as_secs_f64();
    writeln!(
        out,
        "{done} loads, {accepted} accepted, no difference between evaluator and {name}; seed {seed}, {seconds:.1} s"
    )?;
    Ok(ExitCode::SUCCESS)
}

fn compare_sessions(options: &Options, out: &mut dyn Write) -> io::Result<ExitCode> {
    let seed = options.number("--seed")?.unwrap_or(1);
    let first = options.number("--from")?.unwrap_or(0);
    let mut other = options.machine()?;
    let mut own = Evaluator::TRUE;
    let name = other.name();
    let mut end = options.end(10_000)?;
    let (mut done, mut calls) = (0, 0);
    while !end.reached(done, "sessions") {
        options.announce("session", first + done);
        match compare_session(seed, first + done, [&mut own, &mut *other]) {
            Ok(acts) => calls += acts,
            Err(difference) => return found(out, &difference),
        }
        done += 1;
    }
    let seconds = end.start.elapsed().as_secs_f64();
    writeln!(
        out,
        "{done} sessions, {calls} acts, no difference between evaluator and {name}; seed {seed}, {seconds:.1} s"
    )?;
    Ok(ExitCode::SUCCESS)
}

/// Three kept records, every byte of each changed: to some other values, or to all.
fn compare_records(options: &Options, out: &mut dyn Write) -> io::Result<ExitCode> {
    let mut other = options.machine()?;
    let mut own = Evaluator::TRUE;
    let name = other.name();
    let mut machines: [&mut dyn Machine; 2] = [&mut own, &mut *other];
    let all = options.has("--all");
    let first = options.number("--from")?.unwrap_or(0) as usize;
    let count = options.number("--count")?.unwrap_or(RECORD_BYTES as u64) as usize;
    let last = first.saturating_add(count).min(RECORD_BYTES);
    let wanted = options.word("--record");
    let records: Vec<Kept> = three_records().into_iter().filter(|kept| wanted.is_none_or(|w| w == kept.name)).collect();
    if records.is_empty() || first >= last {
        return Err(bad_input("there is no such record, or no such byte".to_string()));
    }
    let mut end = options.end_never();
    let lent = || Lent { record: vec![0; RECORD_BYTES], work: vec![0; WORK_BYTES] };
    let mut lents = [lent(), lent()];
    let (mut calls, mut refused) = (0, 0);
    for kept in &records {
        for at in first..last {
            for value in other_values(kept.record[at], all) {
                match compare_changed(kept, at, value, &mut lents, &mut machines) {
                    Ok(refusals) => refused += refusals,
                    Err(difference) => return found(out, &difference),
                }
                calls += 2;
            }
            end.reached(calls, &format!("calls, at byte {at} of the {} record,", kept.name));
        }
    }
    let seconds = end.start.elapsed().as_secs_f64();
    let records = records.len();
    writeln!(
        out,
        "{records} records, bytes {first} to {}: {calls} runs and replies, {refused} refused, no difference between evaluator and {name}; \
         {seconds:.1} s",
        last - 1
    )?;
    Ok(ExitCode::SUCCESS)
}

/// The table of faults and of the sessions each one took.
fn show_faults(options: &Options, out: &mut dyn Write) -> io::Result<ExitCode> {
    let seed = options.number("--seed")?.unwrap_or(1);
    let most = options.number("--count")?.unwrap_or(20_000);
    writeln!(out, "| fault | what the bent copy does | sessions | first difference |")?;
    writeln!(out, "|---|---|---:|---|")?;
    let mut missed = 0;
    for &fault in Fault::ALL {
        let (sessions, sign) = match look_for(fault, seed, most).found {
            Some((sessions, sign)) => (sessions.to_string(), sign),
            None => {
                missed += 1;
                ("NOT FOUND".to_string(), String::new())
            }
        };
        writeln!(out, "| {fault:?} | {} | {sessions} | {sign} |", fault.words())?;
        out.flush()?;
    }
    writeln!(
        out,
        "\n{} of {} faults found with seed {seed}, at most {most} sessions each.",
        Fault::ALL.len() - missed,
        Fault::ALL.len()
    )?;
    Ok(if missed == 0 { ExitCode::SUCCESS } else { ExitCode::FAILURE })
}

fn found(out: &mut dyn Write, difference: &evaluator::compare::Difference) -> io::Result<ExitCode> {
    // The exit code tells of the difference even if nobody reads the words.
    let _ = write!(out, "{difference}");
    Ok(ExitCode::from(2))
}
