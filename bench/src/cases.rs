//! What is measured: program files to load, records to run and to reply to, each at several sizes.

use evaluator::layout::{u16_at, MAX_ROWS, MAX_TYPES};
use evaluator::make::nests::{nests, Nested};
use evaluator::rows::{kind, Row};
use evaluator::table::{leaf, reply_of};
use tca::RECORD_BYTES;

use crate::terms::*;

/// A call of one entry.
pub enum Call {
    Load(Vec<u8>),
    Run(u32),
    Reply(Vec<u8>),
}

/// A call and the record that it is made on.
pub struct Job {
    pub record: Vec<u8>,
    pub call: Call,
}

/// What a larger size has more of.
#[derive(Clone, Copy, PartialEq)]
pub enum By {
    Rows,
    Types,
    Binders,
    OpenCalls,
    /// Rows that stand before the place of each step or of the future, or behind it.
    Before,
    Behind,
    /// Rows before the future, as many fewer behind it.
    Place,
}

impl By {
    pub fn words(self) -> &'static str {
        match self {
            By::Rows => "rows",
            By::Types => "types",
            By::Binders => "binders",
            By::OpenCalls => "open calls",
            By::Before => "rows before",
            By::Behind => "rows behind",
            By::Place => "row of the future",
        }
    }
}

/// A call at one size; of some only the library's time is wanted, for the growth of the next.
pub struct Size {
    pub size: usize,
    pub job: Job,
    pub shown: bool,
}

/// A call at several sizes, from the least up.
pub struct Case {
    pub name: String,
    pub by: By,
    pub sizes: Vec<Size>,
    /// Whether the growth that counts is that of a step: where a larger term takes more of them, and each walks through what is
    /// left of it to put names or to move lists.
    pub each_step: bool,
}

impl Case {
    /// At half and at full size, of which the full one is shown.
    fn twice(name: &str, by: By, full: usize, make: impl Fn(usize) -> Job) -> Case {
        Case::of_two(name, by, full, [make(full / 2), make(full)])
    }

    fn of_two(name: &str, by: By, full: usize, [half, whole]: [Job; 2]) -> Case {
        let sizes =
            vec![Size { size: full / 2, job: half, shown: false }, Size { size: full, job: whole, shown: true }];
        Case { name: name.to_string(), by, sizes, each_step: false }
    }

    /// At each of these sizes, all shown.
    fn series(name: &str, by: By, sizes: &[usize], make: impl Fn(usize) -> Job) -> Case {
        let sizes = sizes.iter().map(|&size| Size { size, job: make(size), shown: true }).collect();
        Case { name: name.to_string(), by, sizes, each_step: false }
    }

    fn each_step(self) -> Case {
        Case { each_step: true, ..self }
    }
}

impl Job {
    fn load(file: Vec<u8>) -> Job {
        Job { record: vec![0x5A; RECORD_BYTES], call: Call::Load(file) }
    }

    fn run(record: Vec<u8>, budget: u32) -> Job {
        Job { record, call: Call::Run(budget) }
    }

    fn reply(record: Vec<u8>, number: u32, rows: &[Row]) -> Job {
        Job { record, call: Call::Reply(reply_of(number, rows)) }
    }

    /// Type count and row count, of the file or of the record.
    pub fn counts(&self) -> (usize, usize) {
        let bytes = if let Call::Load(file) = &self.call { file } else { &self.record };
        (usize::from(u16_at(bytes, 6)), usize::from(u16_at(bytes, 8)))
    }
}

const TYPES: [usize; 5] = [16, 32, 64, 128, 256];
const BINDERS: [usize; 4] = [32, 64, 128, 256];
const OPEN_CALLS: [usize; 5] = [1, 8, 16, 32, 64];
/// A budget that every routine here ends within.
const PLENTY: u32 = 100_000;

/// The routine whose costs the picture shows, by the entry's name: at its load, at its run to the first call, at the reply
/// to that.
pub fn pictured(entry: &str) -> Case {
    const SIZES: [usize; 6] = [64, 128, 256, 512, 1_024, 2_048];
    match entry {
        "load" => Case::series("(a) a routine", By::Rows, &SIZES[..5], |rows| Job::load(routine(rows, 0))),
        "run" => Case::series("(a) a routine, to its first call", By::Rows, &SIZES, |rows| {
            Job::run(record_of(rows, 0), 1_000)
        }),
        _ => Case::series("(a) a routine, its first call", By::Rows, &SIZES, |rows| {
            reply_of_string(after_a_call(rows, 0), 1)
        }),
    }
}

fn reply_of_string(record: Vec<u8>, number: usize) -> Job {
    Job::reply(record, number as u32, &leaf(kind::STR, 0, 41))
}

/// A case for each nest, of so many rows and of half as many.
fn nested(rows: usize, what: &str, make: impl Fn(&Nested) -> Job) -> Vec<Case> {
    let both = nests(rows / 2).zip(nests(rows));
    both.map(|(half, full)| {
        let name = format!("(c) {}{what}", full.name);
        Case::of_two(&name, By::Rows, rows, [make(&half), make(&full)])
    })
    .collect()
}

pub fn loads() -> Vec<Case> {
    let by_rows =
        |name: &str, make: fn(usize) -> Vec<u8>| Case::twice(name, By::Rows, 1_024, |rows| Job::load(make(rows)));
    let by_types =
        |name: &str, make: fn(usize) -> Vec<u8>| Case::series(name, By::Types, &TYPES, |types| Job::load(make(types)));
    let by_binders = |name: &str, make: fn(usize) -> Vec<u8>| {
        Case::series(name, By::Binders, &BINDERS, |binders| Job::load(make(binders)))
    };
    let mut cases = vec![
        pictured("load"),
        Case::twice("(a) a short routine", By::Rows, 80, |rows| Job::load(routine(rows, 0))),
        Case::twice("(a) a long routine", By::Rows, 200, |rows| Job::load(routine(rows, 0))),
        by_rows("(b) the largest program", |rows| routine(rows, MAX_TYPES)),
        by_types("(b) the largest program", |types| routine(1_024, types)),
        by_types("(b) types of eight parts each", eightfold_chain),
        by_types("(b) types that differ in their last part", last_part_chain),
    ];
    cases.extend(nested(1_024, "", |nested| Job::load(nested.file())));
    cases.extend([
        by_rows("(d) near names under lets", |rows| names_under_lets(rows, rows / 4, |lets, _| lets)),
        by_rows("(d) far names under lets", |rows| names_under_lets(rows, rows / 4, |_, _| 1)),
        by_rows("(d) all names under lets", |rows| names_under_lets(rows, rows / 4, |lets, which| which % lets + 1)),
        by_binders("(d) far names under lets", |lets| names_under_lets(1_024, lets, |_, _| 1)),
        by_rows("(d) near names under functions of eight", |rows| names_under_functions(rows, true)),
        by_rows("(d) far names under functions of eight", |rows| names_under_functions(rows, false)),
        // A string that states Bool: its parent is satisfied, its own rule is not.
        by_rows("(e) the last row fails typing", |rows| with_last_row(routine(rows, MAX_TYPES), kind::STR, 0)),
        by_rows("(e) the last row is a future", |rows| with_last_row(routine(rows, MAX_TYPES), kind::FUTURE, 1)),
        by_rows("(e) the last row is of no kind", |rows| with_last_row(routine(rows, MAX_TYPES), 99, 0)),
    ]);
    cases
}

pub fn runs() -> Vec<Case> {
    let to_first_call = |rows| Job::run(record_of(rows, 0), 1_000);
    let no_step = |rows, types| Job::run(record_of(rows, types), 0);
    let mut cases = vec![
        pictured("run"),
        Case::twice("(a) a short routine, to its first call", By::Rows, 80, to_first_call),
        Case::twice("(a) a long routine, to its first call", By::Rows, 200, to_first_call),
        Case::twice("(b) the largest record, no step", By::Rows, MAX_ROWS, |rows| no_step(rows, MAX_TYPES)),
        Case::series("(b) the largest record, no step", By::Types, &TYPES, |types| no_step(MAX_ROWS, types)),
        Case::series("(b) the largest record, waiting", By::OpenCalls, &OPEN_CALLS, |calls| {
            Job::run(waiting_calls(calls), 1_000)
        }),
        Case::series("(b) the largest record, one call more", By::OpenCalls, &[1, 8, 16, 31, 62], |calls| {
            Job::run(with_a_call_left(calls), 1_000)
        }),
    ];
    cases.extend(nested_runs());
    for (budget, steps) in [(1, "one step"), (1_000, "1,000 steps")] {
        let among = |name, by, make: fn(usize) -> Vec<u8>| {
            Case::twice(&format!("(d) {steps} {name} rows"), by, 2_000, |rows| Job::run(make(rows), budget))
        };
        cases.extend([among("behind", By::Before, loop_behind), among("before", By::Behind, loop_before)]);
    }
    cases.extend([
        Case::twice("(e) a let of many names, one step", By::Rows, 1_600, |rows| Job::run(many_names(rows), 1)),
        Case::twice("(e) zip to its value", By::Rows, 800, |rows| Job::run(zip_of(rows), PLENTY)).each_step(),
        Case::twice("(e) zip of two lists to its value", By::Rows, 800, |rows| Job::run(zip_of_two(rows), PLENTY))
            .each_step(),
        Case::twice("(f) the last row fails typing", By::Rows, MAX_ROWS, |rows| {
            Job::run(with_last_record_row(record_of(rows, MAX_TYPES), kind::STR), 1_000)
        }),
    ]);
    cases
}

/// Runs of each nest. Only ifs wait for what is below them, and a nest of cons takes one step.
fn nested_runs() -> Vec<Case> {
    let mut cases = nested(MAX_ROWS, ", one step", |nested| Job::run(nested.record(), 1));
    let waiting = nested(MAX_ROWS, ", waiting", |nested| Job::run(nested.waiting().0, 1));
    cases.extend(waiting.into_iter().filter(|case| case.name.starts_with("(c) if")));
    let to_value = nested(MAX_ROWS, ", to its value", |nested| Job::run(nested.record(), PLENTY));
    for case in to_value.into_iter().filter(|case| !case.name.starts_with("(c) cons")) {
        let puts_names = case.name.contains("function") || case.name.contains("let");
        cases.push(if puts_names { case.each_step() } else { case });
    }
    cases
}

pub fn replies() -> Vec<Case> {
    let to_first_call = |rows| reply_of_string(after_a_call(rows, 0), 1);
    let largest = |rows, types| reply_of_string(after_a_call(rows, types), 1);
    let mut cases = vec![
        pictured("reply"),
        Case::twice("(a) a short routine, its first call", By::Rows, 80, to_first_call),
        Case::twice("(a) a long routine, its first call", By::Rows, 200, to_first_call),
        Case::twice("(b) the largest record", By::Rows, MAX_ROWS, |rows| largest(rows, MAX_TYPES)),
        Case::series("(b) the largest record", By::Types, &TYPES, |types| largest(MAX_ROWS, types)),
        Case::series("(b) the largest record, the last call", By::OpenCalls, &OPEN_CALLS, |calls| {
            reply_of_string(waiting_calls(calls), calls)
        }),
        Case::series("(b) the largest record, the first call", By::OpenCalls, &OPEN_CALLS, |calls| {
            reply_of_string(waiting_calls(calls), 1)
        }),
    ];
    let innermost = nested(MAX_ROWS, "", |nested| {
        let (record, row) = nested.waiting();
        Job::reply(record, 1, &[row])
    });
    cases.extend(innermost.into_iter().take(4));
    let ten = strings(10);
    cases.extend([
        Case::twice("(d) behind rows", By::Before, 1_900, |rows| Job::reply(call_among(rows, 0), 1, &ten)),
        Case::twice("(d) before rows", By::Behind, 1_900, |rows| Job::reply(call_among(0, rows), 1, &ten)),
        Case::series("(d) among 2,000 rows", By::Place, &[250, 500, 1_000, 2_000], |place| {
            Job::reply(call_among(place, 2_000 - place), 1, &ten)
        }),
        Case::twice("(e) one call in many places", By::Rows, 600, |rows| {
            Job::reply(call_in_places(rows), 1, &strings(1))
        }),
        Case::twice("(f) refused for a closed number", By::Rows, MAX_ROWS, |rows| {
            reply_of_string(after_a_call(rows, MAX_TYPES), 9)
        }),
    ]);
    cases
}

/// A small loop that goes on for ever, among so many rows: a run of no step, and one of many.
pub struct Loop {
    pub rows: usize,
    pub none: Job,
    pub many: Job,
}

/// The steps of the longer run.
pub const LOOP_STEPS: u32 = 1_000;
/// The fewest rows that a loop stands among, with which the others are compared.
pub const FEWEST_ROWS: usize = 20;

/// The loop behind these rows, or before them.
pub fn loops(behind: bool) -> [Loop; 3] {
    let make = if behind { loop_behind } else { loop_before };
    [FEWEST_ROWS, 200, 2_000].map(|rows| {
        let [none, many] = [0, LOOP_STEPS].map(|budget| Job::run(make(rows), budget));
        Loop { rows, none, many }
    })
}
