//! The time of one call: medians of many, each timed alone on buffers made ready before, those who make them taking turns.

use std::time::Instant;

use crate::cases::Job;
use crate::players::{Given, Lent};

/// How many calls the median is taken of, unless they take long.
pub const CALLS: usize = 201;
/// Calls that one makes before it is the next one's turn; the first of a turn warms up and is not counted.
const TURN: usize = 8;
/// Where calls take long, fewer are made: so many seconds for each of those who take turns.
const MOST_SECONDS: f64 = 0.5;
const FEWEST_CALLS: usize = 7;
/// A call of that length is a turn of its own, and needs no warming up.
const LONG_MICROSECONDS: f64 = 10_000.0;
/// A call of that length is likely to be interrupted by other work: there the thread's own time counts.
const INTERRUPTED_MICROSECONDS: f64 = 100.0;

/// Who makes the call.
pub type Player<'a> = &'a dyn Fn(&Job, &mut Lent) -> Given;

/// Median microseconds of each player on its job.
pub fn medians(players: &[(Player, &Job)]) -> Vec<f64> {
    let clock = median((0..1_001).map(|_| microseconds(|| ())).collect());
    let most_seconds = MOST_SECONDS * players.len() as f64;
    let mut lent = Lent::new();
    let mut times: Vec<Vec<f64>> = vec![Vec::new(); players.len()];
    let start = Instant::now();
    let enough = |times: &[Vec<f64>]| {
        let calls = times.iter().map(Vec::len).min().unwrap_or(CALLS);
        calls >= CALLS || calls >= FEWEST_CALLS && start.elapsed().as_secs_f64() > most_seconds
    };
    while !enough(&times) {
        for ((play, job), times) in players.iter().zip(&mut times) {
            for call in 0..=TURN {
                lent.prepare(job);
                let time = microseconds(|| _ = play(job, &mut lent));
                let long = time > LONG_MICROSECONDS;
                if call > 0 || long {
                    times.push((time - clock).max(0.0));
                }
                if long {
                    break;
                }
            }
        }
    }
    times.into_iter().map(median).collect()
}

extern "C" {
    fn clock_gettime(clock: i32, to: *mut [i64; 2]) -> i32;
}

/// Microseconds that this thread has had a processor, if that can be told.
fn thread_microseconds() -> Option<f64> {
    const THREAD_CLOCK: i32 = 3;
    let mut time = [0; 2];
    // SAFETY: the declaration is that of POSIX where long and time_t have 64 bits; the place written is our own.
    let status = unsafe { clock_gettime(THREAD_CLOCK, &mut time) };
    (status == 0).then(|| time[0] as f64 * 1e6 + time[1] as f64 / 1e3)
}

/// Microseconds that a call takes.
fn microseconds(call: impl FnOnce()) -> f64 {
    let thread = thread_microseconds();
    let start = Instant::now();
    call();
    let passed = start.elapsed().as_secs_f64() * 1e6;
    if passed < INTERRUPTED_MICROSECONDS {
        return passed;
    }
    let own = thread.zip(thread_microseconds()).map(|(before, after)| after - before);
    own.map_or(passed, |own| own.min(passed))
}

fn median(mut times: Vec<f64>) -> f64 {
    times.sort_by(f64::total_cmp);
    times[times.len() / 2]
}
