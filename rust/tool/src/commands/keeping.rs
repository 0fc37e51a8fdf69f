//! The commands that keep a run: load, run, reply, play.

use std::io::Write;
use std::path::Path;

use library::{Answer, Record};

use super::{print, read, read_text, Ending, Failure, Status};
use crate::bytes::{record_open, record_rows, record_types, u16_at, u32_at, RECORD_MARK};
use crate::check::check;
use crate::compact::compact;
use crate::judge::{reply_reason, unsound};
use crate::keep::{replace_file, Kept};
use crate::options::Given;
use crate::play::{play, Ended, Tools};
use crate::routine::{Routine, Trouble, HAS_RUN};
use crate::show::{calls_words, lent_types, many, state_words};
use crate::text::read_reply;
use crate::types::Types;

/// The steps of a run whose budget is not given.
const BUDGET: u32 = 1_000_000;

pub(super) fn load(given: &Given, out: &mut dyn Write) -> Ending {
    let (name, target) = (&given.files[0], &given.files[1]);
    let file = read(name)?;
    let kept = Kept::new(Path::new(target));
    // A play under way would take its replies to a routine that is gone for replies to this one.
    let _player = kept.lock_play()?;
    let _lock = kept.lock()?;
    if kept.exists() {
        may_replace(target, &kept.read()?, given.has("--over"))?;
    }
    put_fresh(name, &file, &kept, out)?;
    let record = kept.read()?;
    let counts = format!("{}, {}", many(u16_at(&record, 6).into(), "type"), many(u16_at(&record, 8).into(), "row"));
    writeln!(out, "{target}: loaded: {counts}")?;
    say_next(target, out)?;
    Ok(Status::Done)
}

/// What a record is there for next, where the library has run.
fn say_next(name: &str, out: &mut dyn Write) -> std::io::Result<()> {
    if HAS_RUN {
        writeln!(out, "next: `tca run {name}`")?;
    }
    Ok(())
}

/// Nothing is stepped by a library without run.
fn must_have_run() -> Result<(), Failure> {
    let words =
        "this library has no run yet, so no routine can be run or played; check, show, make, load and reply work";
    if HAS_RUN {
        Ok(())
    } else {
        Err(Failure::Words(Status::WrongUse, words.to_string()))
    }
}

/// Loads a file into a record's place; a refusal leaves the place as it was.
fn put_fresh(name: &str, file: &[u8], kept: &Kept, out: &mut dyn Write) -> Result<(), Failure> {
    match library::load(file) {
        Ok(record) => {
            kept.replace(record.as_bytes())?;
            kept.forget_calls();
            Ok(())
        }
        Err(_) => {
            print(out, &check(name, file).0)?;
            Err(Failure::Words(Status::Refused, "not loaded; no record was changed".to_string()))
        }
    }
}

/// What is no record is never replaced, and one with open calls only if that is wanted.
fn may_replace(name: &str, old: &[u8], over: bool) -> Result<(), Failure> {
    if !old.is_empty() && !old.starts_with(RECORD_MARK) {
        let words = format!("{name} is there and is no run record, so it stays; name another file, or remove it first");
        return Err(Failure::Words(Status::WrongUse, words));
    }
    let open = record_open(old);
    if !open.is_empty() && !over {
        let calls = calls_words(open.iter().map(|entry| entry.number));
        let words =
            format!("{name} has open {calls}, which a load would forget, so it stays; `--over` loads all the same");
        return Err(Failure::Words(Status::Refused, words));
    }
    Ok(())
}

/// A record that the library refuses, with the reason.
fn unsound_words(name: &str, bytes: &[u8], trouble: Trouble) -> Failure {
    match trouble {
        Trouble::File(error) => Failure::File(error),
        Trouble::Refused(refused) => {
            let why = unsound(bytes).map_or(String::new(), |fault| format!(" ({})", fault.why.in_line()));
            let next = format!("the file stays as it is; `tca show {name}` shows what can be read of it");
            Failure::Words(Status::Refused, format!("{name}: refused: {refused}{why}\nnext: {next}"))
        }
    }
}

pub(super) fn run(given: &Given, out: &mut dyn Write) -> Ending {
    must_have_run()?;
    let name = &given.files[0];
    let budget = given.number("--budget").map_err(Failure::Usage)?.unwrap_or(BUDGET);
    let kept = Kept::new(Path::new(name));
    let before = kept.read()?;
    let elsewhere = given.word("--call").map(Path::new);
    let mut routine = Routine::Kept(kept);
    let also =
        |call: &crate::keep::KeptCall| elsewhere.map_or(Ok(()), |path| replace_file(path, &call.call.to_bytes()));
    let (ran, sent) = routine.run(budget, also).map_err(|trouble| unsound_words(name, &before, trouble))?;
    let steps = many(ran.steps as usize, "step");
    if let Some(call) = sent {
        let call = call.call;
        let arguments = compact(&call.rows).join(", ");
        writeln!(out, "{name}: {steps}, SENT: call {}: tool {}({arguments})", call.number, call.tool)?;
        let place = elsewhere.map_or(format!("{name}.calls/{}.call", call.number), |path| path.display().to_string());
        writeln!(
            out,
            "next: hand {place} to its tool; `tca reply {name} REPLY` takes the reply, `tca run {name}` goes on"
        )?;
        return Ok(Status::Done);
    }
    let record = routine.record()?;
    let bytes = record.as_bytes();
    let state = state_words(&ran.answer, &record_rows(bytes), &record_open(bytes));
    writeln!(
        out,
        "{name}: {steps}, {}: {}",
        ran.answer.name(),
        state.trim_start_matches(&format!("{}: ", ran.answer.name()))
    )?;
    if ran.answer == Answer::Value && lent_types(bytes).is_ground(record_rows(bytes)[0].ty) {
        writeln!(out, "value: {}", compact(&record_rows(bytes)).join(" "))?;
    }
    Ok(Status::Done)
}

pub(super) fn reply(given: &Given, out: &mut dyn Write) -> Ending {
    let (name, reply_name) = (&given.files[0], &given.files[1]);
    let kept = Kept::new(Path::new(name));
    let before = kept.read()?;
    let text = given.has("--text").then(|| read_text(reply_name)).transpose()?;
    let bytes = if text.is_none() { read(reply_name)? } else { Vec::new() };
    let mut taken = Vec::new();
    let make = |record: &Record| -> Result<Vec<u8>, Failure> {
        let reply = match &text {
            None => bytes,
            Some(text) => {
                let open: Vec<_> = record.open_calls().collect();
                let types = Types::new(record_types(record.as_bytes()));
                let told = |error| Failure::Words(Status::Refused, format!("{reply_name}: {error}"));
                read_reply(text, &types, &open).map_err(told)?
            }
        };
        taken = reply.clone();
        Ok(reply)
    };
    let ended = Routine::Kept(kept).reply(make);
    match ended {
        Ok(()) => {
            writeln!(out, "{name}: the reply to call {} is taken", u32_at(&taken, 0))?;
            say_next(name, out)?;
            Ok(Status::Done)
        }
        Err(failure) => Err(reply_failure(name, &before, &taken, failure)),
    }
}

/// Why a reply was not taken, with the reason and what to do.
fn reply_failure(name: &str, record: &[u8], reply: &[u8], failure: Failure) -> Failure {
    let words = match failure {
        Failure::Refused(refused) => {
            let (number, place) = (refused.refusal.number(), refused.place as usize);
            let by_reply =
                reply_reason(record, reply).filter(|reason| (reason.refusal, reason.place) == (number, place));
            let by_record = || unsound(record).filter(|_| number == 10).map(|fault| fault.why);
            let why = by_reply.map(|reason| reason.why).or_else(by_record);
            format!("refused: {refused}{}", why.map_or(String::new(), |why| format!(" ({})", why.in_line())))
        }
        Failure::Words(Status::Refused, words) => words,
        other => return other,
    };
    let open = record_open(record);
    let open = match open.is_empty() {
        true => "no call is open".to_string(),
        false => format!("open: {}", calls_words(open.iter().map(|entry| entry.number))),
    };
    let next = format!("the record stays as it is; {open}; `tca show {name}` shows the types");
    Failure::Words(Status::Refused, format!("{words}\nnext: {next}"))
}

pub(super) fn play_file(given: &Given, out: &mut dyn Write) -> Ending {
    must_have_run()?;
    let name = &given.files[0];
    let file = read(name)?;
    let tools = given.word("--tools").map_or(Tools::Terminal, |program| Tools::Program(program.into()));
    if let Tools::Program(program) = &tools {
        can_be_started(program)?;
    }
    let loaded = library::load(&file);
    if loaded.is_err() {
        print(out, &check(name, &file).0)?;
    }
    let record = loaded.map_err(|_| Failure::Words(Status::Refused, "not played".to_string()))?;
    let Some(record_name) = given.word("--record") else {
        let ended = play(&mut Routine::in_memory(record), tools, out)?;
        return Ok(if ended == Ended::AtItsValue { Status::Done } else { Status::Refused });
    };
    let kept = Kept::new(Path::new(record_name));
    let _player = kept.lock_play()?;
    {
        let _lock = kept.lock()?;
        if kept.exists() {
            same_routine(record_name, &kept.read()?, &record)?;
            writeln!(out, "{record_name}: taken up again")?;
        } else {
            put_fresh(name, &file, &kept, out)?;
        }
    }
    let before = kept.read()?;
    let ended =
        play(&mut Routine::Kept(kept), tools, out).map_err(|trouble| unsound_words(record_name, &before, trouble))?;
    Ok(if ended == Ended::AtItsValue { Status::Done } else { Status::Refused })
}

/// What keeps a program from being started is better said before a call is sent.
fn can_be_started(program: &Path) -> Result<(), Failure> {
    let bare = program.components().count() == 1 && !program.starts_with(".");
    let name = program.display();
    let words = match (bare, program.is_file()) {
        (true, true) => format!("--tools {name}: a program in this folder is named ./{name}"),
        (false, false) => format!("--tools {name}: there is no such program"),
        _ => return Ok(()),
    };
    Err(Failure::Words(Status::WrongUse, words))
}

/// A record can be taken up by the routine that it was loaded from: types and program type never change.
fn same_routine(name: &str, kept: &[u8], fresh: &Record) -> Result<(), Failure> {
    let fresh = fresh.as_bytes();
    let program_type = |bytes: &[u8]| u16_at(bytes, 16);
    if record_types(kept) == record_types(fresh) && program_type(kept) == program_type(fresh) {
        return Ok(());
    }
    let words =
        format!("{name} is no record of this routine: its types are others; name another record, or remove it first");
    Err(Failure::Words(Status::WrongUse, words))
}
