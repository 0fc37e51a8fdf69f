//! A routine that runs: kept as a file, where every change is in place before it is told, or in memory alone.

use std::collections::HashMap;
use std::io;

use library::{Answer, Open, Ran, Record, Refusal, Refused, Work};

use crate::keep::{new_ticket, Kept, KeptCall};

/// Whether the library has run, by which records are stepped: the feature `run`.
pub const HAS_RUN: bool = cfg!(feature = "run");

#[cfg(feature = "run")]
use library::run as library_run;

/// Stands where the library has no run. The commands look at `HAS_RUN` first.
#[cfg(not(feature = "run"))]
fn library_run(_: &mut Record, _: &mut Work, _: u32) -> Result<Ran, Refused> {
    unreachable!("this library has no run")
}

/// What a record comes to in no steps, or why it is not sound. Without run, an empty reply finds that out: soundness is looked at
/// before the reply is, which is then refused for its header.
pub fn state(mut record: Record) -> Result<Option<Answer>, Refused> {
    let mut work = Work::new();
    if HAS_RUN {
        return library_run(&mut record, &mut work, 0).map(|ran| Some(ran.answer));
    }
    match library::reply(&mut record, &mut work, &[]) {
        Err(refused) if refused.refusal != Refusal::Header => Err(refused),
        _ => Ok(None),
    }
}

/// A run, or a reply, that did not come about.
#[derive(Debug)]
pub enum Trouble {
    Refused(Refused),
    File(io::Error),
}

impl From<Refused> for Trouble {
    fn from(refused: Refused) -> Trouble {
        Trouble::Refused(refused)
    }
}

impl From<io::Error> for Trouble {
    fn from(error: io::Error) -> Trouble {
        Trouble::File(error)
    }
}

/// Where a run's record is.
#[derive(Debug)]
pub enum Routine {
    Kept(Kept),
    InMemory { record: Box<Record>, calls: HashMap<u32, KeptCall> },
}

impl Routine {
    pub fn in_memory(record: Record) -> Routine {
        Routine::InMemory { record: Box::new(record), calls: HashMap::new() }
    }

    /// The record as it stands.
    pub fn record(&self) -> Result<Record, Trouble> {
        match self {
            Routine::Kept(kept) => Ok(Record::from_bytes(&kept.read()?)?),
            Routine::InMemory { record, .. } => Ok((**record).clone()),
        }
    }

    /// Runs the record. A call that it sends is kept before the record that counts it is in place; `also` may keep its bytes
    /// elsewhere at that time.
    pub fn run(
        &mut self,
        budget: u32,
        also: impl Fn(&KeptCall) -> io::Result<()>,
    ) -> Result<(Ran, Option<KeptCall>), Trouble> {
        let mut work = Work::new();
        match self {
            Routine::Kept(kept) => {
                let _lock = kept.lock()?;
                let mut record = Record::from_bytes(&kept.read()?)?;
                let before = record.clone();
                let ran = library_run(&mut record, &mut work, budget)?;
                let mut sent = None;
                if let Answer::Sent(call) = &ran.answer {
                    let call = kept.keep_call(call)?;
                    also(&call)?;
                    sent = Some(call);
                }
                if record != before {
                    kept.replace(record.as_bytes())?;
                }
                Ok((ran, sent))
            }
            Routine::InMemory { record, calls } => {
                let ran = library_run(record, &mut work, budget)?;
                let sent = match &ran.answer {
                    Answer::Sent(call) => Some(KeptCall { call: call.clone(), ticket: new_ticket() }),
                    _ => None,
                };
                if let Some(call) = &sent {
                    calls.insert(call.call.number, call.clone());
                }
                Ok((ran, sent))
            }
        }
    }

    /// Takes a reply, which `make` makes for the record as it stands.
    pub fn reply<E: From<Trouble>>(&mut self, make: impl FnOnce(&Record) -> Result<Vec<u8>, E>) -> Result<(), E> {
        let mut work = Work::new();
        match self {
            Routine::Kept(kept) => {
                let _lock = kept.lock().map_err(Trouble::from)?;
                let mut record = Record::from_bytes(&kept.read().map_err(Trouble::from)?).map_err(Trouble::from)?;
                let reply = make(&record)?;
                library::reply(&mut record, &mut work, &reply).map_err(Trouble::from)?;
                kept.replace(record.as_bytes()).map_err(Trouble::from)?;
                kept.forget_call(crate::bytes::u32_at(&reply, 0));
            }
            Routine::InMemory { record, calls } => {
                let reply = make(record)?;
                library::reply(record, &mut work, &reply).map_err(Trouble::from)?;
                calls.remove(&crate::bytes::u32_at(&reply, 0));
            }
        }
        Ok(())
    }

    /// An open call as it was sent, if it was kept.
    pub fn call(&self, number: u32) -> Option<KeptCall> {
        match self {
            Routine::Kept(kept) => kept.call(number),
            Routine::InMemory { calls, .. } => calls.get(&number).cloned(),
        }
    }

    pub fn open_calls(&self) -> Result<Vec<Open>, Trouble> {
        Ok(self.record()?.open_calls().collect())
    }
}
