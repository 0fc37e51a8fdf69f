//! Shows that comparing finds faults: each one, put alone into a copy of the evaluator, and the sessions it took.

use crate::compare::{compare_session, Difference, Given};
use crate::fault::Fault;
use crate::machine::Evaluator;

/// How a fault was found.
pub struct Finding {
    pub fault: Fault,
    /// How many sessions it took, and what differed first; none if it was not found.
    pub found: Option<(u64, String)>,
}

/// Looks for one fault in at most so many sessions.
pub fn look_for(fault: Fault, seed: u64, sessions: u64) -> Finding {
    for number in 0..sessions {
        let mut bent = Evaluator::bent(fault);
        if let Err(difference) = compare_session(seed, number, [&mut Evaluator::TRUE.clone(), &mut bent]) {
            return Finding { fault, found: Some((number + 1, sign(&difference))) };
        }
    }
    Finding { fault, found: None }
}

/// What differed, in a few words.
fn sign(difference: &Difference) -> String {
    let [left, right] = difference.given;
    match (left == right, difference.byte) {
        (false, _) => format!("{} instead of {}", given_words(right), given_words(left)),
        (true, Some((buffer, at, ..))) => format!("{buffer} byte {at}"),
        (true, None) => "nothing".to_string(),
    }
}

fn given_words(given: Given) -> String {
    use crate::entries::Outcome;
    match given {
        Given::Nothing => "nothing".to_string(),
        Given::Verdict(verdict) => match (verdict.refusal, verdict.place) {
            (0, _) => "accepted".to_string(),
            (refusal, place) => format!("refusal {refusal} at {place}"),
        },
        Given::Outcome(Outcome::Refused(verdict)) => format!("refused {}", verdict.refusal),
        Given::Outcome(Outcome::Ran { answer, sent, steps }) => {
            let name = format!("{answer:?}").to_uppercase();
            if sent > 0 {
                format!("{name} {sent} after {steps}")
            } else {
                format!("{name} after {steps}")
            }
        }
    }
}
