//! What a run gives: its answer in words, the call that it sent, the steps that it made.

use std::fmt;

#[cfg(any(feature = "run", test))]
use crate::entries::{RunAnswer, Verdict};
#[cfg(any(feature = "run", test))]
use crate::refusals::{self, Refused};
use crate::rows::Call;

/// What a run has come to.
#[derive(Clone, Debug, PartialEq, Eq, Hash)]
pub struct Ran {
    /// Why the run ended.
    pub answer: Answer,
    /// The steps that it made; a call that was sent is one of them.
    pub steps: u32,
}

/// Why a run ended. The numbers are those of include/tca.h.
#[derive(Clone, Debug, PartialEq, Eq, Hash)]
pub enum Answer {
    /// The term is a value: the routine is done.
    Value,
    /// No step can be made before a reply comes.
    Waiting,
    /// This call was sent.
    Sent(Call),
    /// The next step would send a call, and [`MAX_OPEN_CALLS`](crate::MAX_OPEN_CALLS) are open.
    Held,
    /// The budget's steps are made, and another could be.
    Budget,
    /// The next term would pass [`MAX_RECORD_ROWS`](crate::MAX_RECORD_ROWS) rows.
    Room,
    /// The next step would send a call, and all 65,535 numbers are used up.
    Numbers,
}

impl Answer {
    /// The number by which documents and C programs know the answer.
    pub fn number(&self) -> u32 {
        match self {
            Answer::Value => 0,
            Answer::Waiting => 1,
            Answer::Sent(_) => 2,
            Answer::Held => 3,
            Answer::Budget => 4,
            Answer::Room => 5,
            Answer::Numbers => 6,
        }
    }

    /// The name by which documents know the answer.
    pub fn name(&self) -> &'static str {
        match self {
            Answer::Value => "VALUE",
            Answer::Waiting => "WAITING",
            Answer::Sent(_) => "SENT",
            Answer::Held => "HELD",
            Answer::Budget => "BUDGET",
            Answer::Room => "ROOM",
            Answer::Numbers => "NUMBERS",
        }
    }
}

impl fmt::Display for Answer {
    fn fmt(&self, f: &mut fmt::Formatter) -> fmt::Result {
        match self {
            Answer::Value => f.write_str("the routine is done: it has come to its value"),
            Answer::Waiting => f.write_str("the routine waits for a reply"),
            Answer::Sent(call) => write!(f, "call {} was sent", call.number),
            Answer::Held => f.write_str("the next call is held back: 64 calls are open"),
            Answer::Budget => f.write_str("the budget's steps are made"),
            Answer::Room => f.write_str("the next step would make the routine pass 2,048 rows"),
            Answer::Numbers => f.write_str("no call can be sent: all 65,535 numbers are used up"),
        }
    }
}

/// A run's answer in words, with the call that the work buffer holds after a send.
#[cfg(any(feature = "run", test))]
pub(crate) fn outcome(given: RunAnswer, work: &[u8]) -> Result<Ran, Refused> {
    let RunAnswer { refusal, answer, sent, steps } = given;
    if refusal != 0 && (answer, sent, steps) == (0, 0, 0) {
        refusals::outcome(Verdict { refusal, place: 0 }, &[10])?;
    }
    let call = Call::from_bytes(work).filter(|call| sent != 0 && call.number == sent);
    let answer = match (refusal, answer, call) {
        (0, 0, None) if sent == 0 => Answer::Value,
        (0, 1, None) if sent == 0 => Answer::Waiting,
        (0, 2, Some(call)) => Answer::Sent(call),
        (0, 3, None) if sent == 0 => Answer::Held,
        (0, 4, None) if sent == 0 => Answer::Budget,
        (0, 5, None) if sent == 0 => Answer::Room,
        (0, 6, None) if sent == 0 => Answer::Numbers,
        _ => panic!("libtca.a gave the unknown answer {given:?}: it is not the library that this wrapper is for"),
    };
    Ok(Ran { answer, steps })
}

#[cfg(test)]
mod tests {
    use super::*;
    use crate::refusals::Refusal;

    const NO_CALL: [u8; 12] = [0; 12];
    const CALL_5: [u8; 12] = [5, 0, 0, 0, 9, 0, 0, 0, 0, 0, 1, 0];

    fn ran(answer: u32, sent: u32) -> RunAnswer {
        RunAnswer { refusal: 0, answer, sent, steps: 3 }
    }

    #[test]
    fn each_number_of_the_library_has_its_answer() {
        for number in [0, 1, 3, 4, 5, 6] {
            let Ran { answer, steps } = outcome(ran(number, 0), &NO_CALL).unwrap();
            assert_eq!((answer.number(), steps), (number, 3));
        }
        let call = Call { number: 5, tool: 9, result: 1, rows: vec![] };
        let sent = outcome(ran(2, 5), &CALL_5).unwrap();
        assert_eq!((sent.answer.number(), sent.answer), (2, Answer::Sent(call)));
        let refused = RunAnswer { refusal: 10, answer: 0, sent: 0, steps: 0 };
        assert_eq!(outcome(refused, &CALL_5), Err(Refused { refusal: Refusal::Unsound, place: 0 }));
    }

    #[test]
    fn what_no_library_gives_is_no_answer() {
        let strange = [
            (ran(7, 0), NO_CALL),
            (ran(2, 0), CALL_5),
            (ran(2, 5), NO_CALL),
            (ran(2, 6), CALL_5),
            (ran(0, 5), CALL_5),
            (RunAnswer { refusal: 10, answer: 0, sent: 0, steps: 1 }, NO_CALL),
            (RunAnswer { refusal: 11, answer: 0, sent: 0, steps: 0 }, NO_CALL),
        ];
        for (given, work) in strange {
            assert!(std::panic::catch_unwind(|| outcome(given, &work)).is_err(), "{given:?}");
        }
    }
}
