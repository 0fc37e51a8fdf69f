//! A routine played to its end: each call goes to a tool or to the person at the terminal, each reply is taken as it comes.

use std::io::{self, BufRead, Write};
use std::path::{Path, PathBuf};
use std::process::{Command, Stdio};
use std::sync::mpsc::{channel, Receiver, Sender};
use std::thread;

use library::{Answer, Record, Refusal, Refused};

use crate::bytes::{read_rows, record_open, record_rows, record_types, Row, REPLY_HEAD};
use crate::compact::compact;
use crate::judge::reply_reason;
use crate::keep::KeptCall;
use crate::lines::term_lines;
use crate::routine::{Routine, Trouble};
use crate::show::{calls_words, many, state_words};
use crate::text::{read_reply, TextError};
use crate::types::Types;
use crate::words::Words;

/// Steps of one run while playing; afterwards it is said that the routine still goes.
const STEPS_A_RUN: u32 = 1_000_000;

/// Where calls go.
#[derive(Clone, Debug)]
pub enum Tools {
    Program(PathBuf),
    Terminal,
}

/// How a play ended.
#[derive(Clone, Copy, Debug, PartialEq, Eq)]
pub enum Ended {
    AtItsValue,
    /// Before its end: at a limit, or for want of a reply.
    Before,
}

/// A reply that was not taken.
enum Unanswered {
    Trouble(Trouble),
    /// The term has no room for it now.
    NoRoom(String),
    Words(String),
}

impl From<Trouble> for Unanswered {
    fn from(trouble: Trouble) -> Unanswered {
        Unanswered::Trouble(trouble)
    }
}

/// A call's number, and what the tools' program answered or why it did not.
type Answered = (u32, Result<String, String>);

struct Play<'a> {
    routine: &'a mut Routine,
    tools: Tools,
    out: &'a mut dyn Write,
    /// Calls that were handed to the tools' program and not yet answered.
    handed: usize,
    answers: (Sender<Answered>, Receiver<Answered>),
    /// Replies for which the term had no room when they came: it may have when another call is answered.
    put_off: Vec<(u32, String)>,
    /// The limits that were told.
    told: Vec<Answer>,
}

/// Plays a routine to its end.
pub fn play(routine: &mut Routine, tools: Tools, out: &mut dyn Write) -> Result<Ended, Trouble> {
    let mut play = Play { routine, tools, out, handed: 0, answers: channel(), put_off: Vec::new(), told: Vec::new() };
    play.take_up()?;
    play.go()
}

impl Play<'_> {
    fn tell(&mut self, words: impl AsRef<str>) -> Result<(), Trouble> {
        writeln!(self.out, "{}", words.as_ref())?;
        self.out.flush()?;
        Ok(())
    }

    /// Hands over again what is open: whether a tool has seen it is not known.
    fn take_up(&mut self) -> Result<(), Trouble> {
        for open in self.routine.open_calls()? {
            match self.routine.call(open.number) {
                Some(call) => {
                    self.tell(format!("{} (again)", self.call_words(&call)?))?;
                    self.hand_over(call, true)?;
                }
                None => {
                    let words = "its arguments were not kept beside the record; `tca reply` can answer it";
                    self.tell(format!("call {}: open; {words}", open.number))?;
                }
            }
        }
        Ok(())
    }

    fn go(&mut self) -> Result<Ended, Trouble> {
        let mut steps: u64 = 0;
        loop {
            let (ran, sent) = self.routine.run(STEPS_A_RUN, |_| Ok(()))?;
            steps += u64::from(ran.steps);
            match (&ran.answer, sent) {
                (_, Some(call)) => {
                    self.tell(self.call_words(&call)?)?;
                    self.hand_over(call, false)?;
                }
                (Answer::Value, _) => return self.value(),
                (Answer::Budget, _) => eprintln!("tca: {steps} steps made and no end yet; Ctrl-C stops the play"),
                (answer, _) => {
                    if *answer != Answer::Waiting && !self.told.contains(answer) {
                        let record = self.routine.record()?;
                        let bytes = record.as_bytes();
                        self.tell(state_words(answer, &record_rows(bytes), &record_open(bytes)))?;
                        self.told.push(answer.clone());
                    }
                    if !self.await_reply()? {
                        return self.stopped(answer);
                    }
                }
            }
        }
    }

    fn value(&mut self) -> Result<Ended, Trouble> {
        let record = self.routine.record()?;
        let rows = record_rows(record.as_bytes());
        let types = Types::new(record_types(record.as_bytes()));
        let words = Words::new(&types);
        let ty = words.ty(rows[0].ty);
        if types.is_ground(rows[0].ty) {
            self.tell(format!("value: {} : {ty}", compact(&rows).join(" ")))?;
        } else {
            self.tell(format!("value, of type {ty}:"))?;
            for line in term_lines(&words, &rows, None, true) {
                self.tell(line)?;
            }
        }
        Ok(Ended::AtItsValue)
    }

    fn stopped(&mut self, answer: &Answer) -> Result<Ended, Trouble> {
        let record = self.routine.record()?;
        let open: Vec<u32> = record.open_calls().map(|open| open.number).collect();
        let kept = matches!(self.routine, Routine::Kept(_));
        let calls = calls_words(open.iter().copied());
        let next = match (open.is_empty(), kept) {
            (true, _) => "it cannot go on".to_string(),
            (false, true) => format!("no reply to {calls}; the same command hands them over again"),
            (false, false) => format!("no reply to {calls}; with `--record RECORD` the run could be taken up again"),
        };
        self.tell(format!("stopped before its end, {}: {next}", answer.name()))?;
        Ok(Ended::Before)
    }

    fn call_words(&self, call: &KeptCall) -> Result<String, Trouble> {
        let call = &call.call;
        Ok(format!("call {}: tool {}({})", call.number, call.tool, compact(&call.rows).join(", ")))
    }

    fn hand_over(&mut self, call: KeptCall, again: bool) -> Result<(), Trouble> {
        let Tools::Program(program) = &self.tools else { return Ok(()) };
        let types = Types::new(record_types(self.routine.record()?.as_bytes()));
        let text = request(&call, &Words::new(&types).ty(call.call.result), again);
        let (program, sender, number) = (program.clone(), self.answers.0.clone(), call.call.number);
        self.handed += 1;
        thread::spawn(move || {
            let _ = sender.send((number, ask(&program, &text)));
        });
        Ok(())
    }

    /// Waits for a reply and takes it; false if there is none to wait for.
    fn await_reply(&mut self) -> Result<bool, Trouble> {
        match self.tools {
            Tools::Terminal => self.await_line(),
            Tools::Program(_) => self.await_program(),
        }
    }

    fn await_program(&mut self) -> Result<bool, Trouble> {
        for (number, text) in std::mem::take(&mut self.put_off) {
            if self.settle(number, Ok(text))? {
                return Ok(true);
            }
        }
        while self.handed > 0 {
            let (number, answer) = self.answers.1.recv().expect("the sender is kept as long");
            self.handed -= 1;
            if self.settle(number, answer)? {
                return Ok(true);
            }
        }
        Ok(false)
    }

    /// Takes what the tools' program answered; whether the routine may now go on.
    fn settle(&mut self, number: u32, answer: Result<String, String>) -> Result<bool, Trouble> {
        let taken = answer.map_err(Unanswered::Words).and_then(|text| {
            let taken = self.take(number, &text);
            if matches!(taken, Err(Unanswered::NoRoom(_))) {
                self.put_off.push((number, text));
            }
            taken
        });
        match taken {
            Ok(()) => Ok(true),
            Err(Unanswered::Trouble(Trouble::Refused(refused))) if refused.refusal == Refusal::NotOpen => {
                self.tell(format!("reply {number}: left aside, as the call was answered from elsewhere"))?;
                Ok(true)
            }
            Err(Unanswered::Trouble(trouble)) => Err(trouble),
            Err(Unanswered::NoRoom(words)) => {
                self.tell(format!("reply {number}: put off: {words}"))?;
                Ok(false)
            }
            Err(Unanswered::Words(words)) => {
                self.tell(format!("call {number}: no reply: {words}"))?;
                Ok(false)
            }
        }
    }

    /// Takes a reply in text to a call.
    fn take(&mut self, number: u32, text: &str) -> Result<(), Unanswered> {
        let mut rows: Vec<Row> = Vec::new();
        self.routine.reply(|record: &Record| {
            let types = Types::new(record_types(record.as_bytes()));
            let open: Vec<_> = record.open_calls().filter(|open| open.number == number).collect();
            if open.is_empty() {
                let refused = Refused { refusal: Refusal::NotOpen, place: 0 };
                return Err(Unanswered::Trouble(refused.into()));
            }
            let told = |error: TextError| Unanswered::Words(format!("its text cannot be read: {error}"));
            let reply = read_reply(text, &types, &open).map_err(told)?;
            would_be_taken(record, &reply)?;
            rows = read_rows(&reply[REPLY_HEAD..]);
            Ok(reply)
        })?;
        self.tell(format!("reply {number}: {}", compact(&rows).join(" "))).map_err(Unanswered::Trouble)
    }

    /// Asks at the terminal until a reply is taken; false at the end of its input.
    fn await_line(&mut self) -> Result<bool, Trouble> {
        loop {
            let record = self.routine.record()?;
            let types = Types::new(record_types(record.as_bytes()));
            let words = Words::new(&types);
            let open: Vec<_> = record.open_calls().collect();
            let Some(first) = open.first() else { return Ok(false) };
            let others = match open.len() {
                1 => String::new(),
                _ => format!(", or NUMBER and reply for another of {}", many(open.len(), "open call")),
            };
            write!(self.out, "reply to call {} ({}{others})> ", first.number, words.ty(first.ty))?;
            self.out.flush()?;
            let mut line = String::new();
            if io::stdin().lock().read_line(&mut line)? == 0 {
                self.tell("")?;
                return Ok(false);
            }
            let line = line.trim().trim_start_matches("reply ").trim();
            if line.is_empty() {
                continue;
            }
            let digits = line.bytes().take_while(u8::is_ascii_digit).count();
            let number = if digits == 0 { Some(first.number) } else { line[..digits].parse().ok() };
            let text = line[digits..].trim_start_matches(':');
            let Some(number) = number.filter(|number| open.iter().any(|open| open.number == *number)) else {
                self.tell(format!("call {} is not open; a reply is a value, as `str 41`", &line[..digits]))?;
                continue;
            };
            match self.take(number, text) {
                Ok(()) => return Ok(true),
                Err(Unanswered::Words(words) | Unanswered::NoRoom(words)) => {
                    self.tell(format!("not taken: {words}"))?
                }
                Err(Unanswered::Trouble(Trouble::Refused(refused))) => self.tell(format!("not taken: {refused}"))?,
                Err(Unanswered::Trouble(trouble)) => return Err(trouble),
            }
        }
    }
}

/// Whether the record would take a reply, and if not why. The library is asked on a copy.
fn would_be_taken(record: &Record, reply: &[u8]) -> Result<(), Unanswered> {
    let Err(refused) = library::reply(&mut record.clone(), &mut library::Work::new(), reply) else { return Ok(()) };
    let agrees = |refusal: u32, place: usize| (refusal, place) == (refused.refusal.number(), refused.place as usize);
    let reason = reply_reason(record.as_bytes(), reply).filter(|reason| agrees(reason.refusal, reason.place));
    let why = reason.map_or(String::new(), |reason| format!(" ({})", reason.why.in_line()));
    let words = format!("{refused}{why}");
    Err(if refused.refusal == Refusal::ReplyRoom { Unanswered::NoRoom(words) } else { Unanswered::Words(words) })
}

/// What the tools' program reads: a line each for the call's number, its ticket, whether it may have been handed over
/// before, its tool, the type of its result, and each argument.
pub fn request(call: &KeptCall, result: &str, again: bool) -> String {
    let KeptCall { call, ticket } = call;
    let again = if again { "yes" } else { "no" };
    let mut text =
        format!("call {}\nticket {ticket}\nagain {again}\ntool {}\nresult {result}\n", call.number, call.tool);
    for argument in compact(&call.rows) {
        text += &format!("argument {argument}\n");
    }
    text
}

/// Hands a call to the program and waits for its answer.
fn ask(program: &Path, text: &str) -> Result<String, String> {
    let name = program.display();
    let mut child = Command::new(program)
        .stdin(Stdio::piped())
        .stdout(Stdio::piped())
        .spawn()
        .map_err(|error| format!("{name} cannot be started: {error}"))?;
    if let Some(mut input) = child.stdin.take() {
        // A program that answers without reading the call to its end is free to.
        let _ = input.write_all(text.as_bytes());
    }
    let output = child.wait_with_output().map_err(|error| format!("{name}: {error}"))?;
    if !output.status.success() {
        return Err(format!("{name} ended with {}", output.status));
    }
    String::from_utf8(output.stdout).map_err(|_| format!("{name} gave what is no text"))
}
