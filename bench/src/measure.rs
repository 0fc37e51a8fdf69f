//! The figures of a case: the library's calls compared with the evaluator's and then timed, at each size.

use crate::cases::{Case, Job, Loop, Size, LOOP_STEPS};
use crate::players::{evaluator as by_evaluator, library, Given, Lent, Limit};
use crate::stack;
use crate::timing::{medians, Player};

/// Times of the three, in microseconds.
#[derive(Clone, Copy)]
pub struct Times {
    pub library: f64,
    pub evaluator: f64,
    pub limit: f64,
}

impl Times {
    pub fn ratio(&self) -> f64 {
        self.library / self.evaluator
    }

    pub fn of_limit(&self) -> f64 {
        self.library / self.limit
    }
}

/// What is told of a case at one size.
pub struct Figures {
    pub size: usize,
    pub rows: usize,
    pub types: usize,
    pub given: Given,
    pub times: Times,
    /// The library's time over that at half the size, where that was measured.
    pub growth: Option<Growth>,
    /// Bytes of stack.
    pub stack: usize,
}

/// What twice the size costs, of a call and of each of its steps.
#[derive(Clone, Copy)]
pub struct Growth {
    pub of_call: f64,
    pub of_step: f64,
    /// Whether the larger call makes more steps.
    pub more_steps: bool,
}

/// What the library gives for a job, if the evaluator gives the same and leaves the same bytes.
fn agreed(job: &Job) -> Result<Given, String> {
    let [mut left, mut right] = [Lent::new(), Lent::new()];
    left.prepare(job);
    right.prepare(job);
    let [said, wanted] = [library(job, &mut left), by_evaluator(job, &mut right)];
    if said != wanted || left != right {
        return Err(format!("the library gives {said:?}, the evaluator {wanted:?}; bytes equal: {}", left == right));
    }
    Ok(said)
}

/// The figures of each size that is shown.
pub fn figures(case: &Case) -> Result<Vec<Figures>, String> {
    let given = case.sizes.iter().map(|size| agreed(&size.job)).collect::<Result<Vec<_>, _>>()?;
    let of_library: Vec<(Player, &Job)> = case.sizes.iter().map(|size| (&library as Player, &size.job)).collect();
    let shown: Vec<&Size> = case.sizes.iter().filter(|size| size.shown).collect();
    let limits: Vec<Limit> = shown.iter().map(|size| Limit::of(&size.job)).collect();
    let play_limits: Vec<_> = limits.iter().map(|limit| |job: &Job, lent: &mut Lent| limit.play(job, lent)).collect();
    let of_evaluator = shown.iter().map(|size| (&by_evaluator as Player, &size.job));
    let of_limit = shown.iter().zip(&play_limits).map(|(size, play)| (play as Player, &size.job));
    let times = medians(&of_library.into_iter().chain(of_evaluator).chain(of_limit).collect::<Vec<_>>());
    let (library, others) = times.split_at(case.sizes.len());
    let (evaluator, limit) = others.split_at(shown.len());
    let steps = |k: usize| f64::from(given[k][4].max(1));
    let growth = |half: usize, whole: usize| {
        let of_call = library[whole] / library[half];
        let of_step = of_call * steps(half) / steps(whole);
        Growth { of_call, of_step, more_steps: steps(whole) > steps(half) }
    };
    let shown_at = (0..case.sizes.len()).filter(|&k| case.sizes[k].shown);
    let told = shown_at.enumerate().map(|(which, k)| {
        let Size { size, job, .. } = &case.sizes[k];
        let half = case.sizes.iter().position(|other| other.size * 2 == *size);
        let (types, rows) = job.counts();
        let times = Times { library: library[k], evaluator: evaluator[which], limit: limit[which] };
        let growth = half.map(|half| growth(half, k));
        Figures { size: *size, rows, types, given: given[k], times, growth, stack: stack_of(job) }
    });
    Ok(told.collect())
}

fn stack_of(job: &Job) -> usize {
    let mut lent = Lent::new();
    lent.prepare(job);
    stack::used_by(|| _ = library(job, &mut lent))
}

/// The times of one step of each loop: what a run of many steps takes longer than one of none. All take turns.
pub fn steps_of_loops(loops: &[Loop]) -> Result<Vec<Times>, String> {
    let jobs: Vec<&Job> = loops.iter().flat_map(|each| [&each.none, &each.many]).collect();
    for (job, steps) in jobs.iter().zip([0, LOOP_STEPS].into_iter().cycle()) {
        let given = agreed(job)?;
        if given[4] != steps {
            return Err(format!("the loop gives {given:?}, and not {steps} steps"));
        }
    }
    let limits: Vec<Limit> = jobs.iter().map(|job| Limit::of(job)).collect();
    let play_limits: Vec<_> = limits.iter().map(|limit| |job: &Job, lent: &mut Lent| limit.play(job, lent)).collect();
    let mut players: Vec<(Player, &Job)> = Vec::new();
    for (job, play_limit) in jobs.into_iter().zip(&play_limits) {
        players.extend([(&library as Player, job), (&by_evaluator, job), (play_limit, job)]);
    }
    let times = medians(&players);
    let steps = times.chunks_exact(6).map(|of_loop| {
        let step = |who: usize| (of_loop[3 + who] - of_loop[who]) / f64::from(LOOP_STEPS);
        Times { library: step(0), evaluator: step(1), limit: step(2) }
    });
    Ok(steps.collect())
}
