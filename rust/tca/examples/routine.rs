//! Lives through a whole routine: loads it, runs it, prints each call that it sends, replies once it waits, and prints the
//! value that it comes to. Two tools stand in for the stall's: 900 gives a string, 901 gives true.

use std::process::ExitCode;

use tca::{Answer, Call, Refused, Row, Work};

const LOOK: u32 = 901;

fn main() -> ExitCode {
    let Some(file) = std::env::args_os().nth(1).and_then(|name| std::fs::read(name).ok()) else {
        eprintln!("usage: routine FILE");
        return ExitCode::from(2);
    };
    match live(&file) {
        Ok(code) => code,
        Err(refused) => {
            println!("refused: {refused}");
            ExitCode::FAILURE
        }
    }
}

fn live(file: &[u8]) -> Result<ExitCode, Refused> {
    let mut record = tca::load(file)?;
    let mut work = Work::new();
    let mut waiting = Vec::new();
    let mut steps = 0;
    loop {
        let ran = tca::run(&mut record, &mut work, 1_000)?;
        steps += u64::from(ran.steps);
        match ran.answer {
            Answer::Sent(call) => {
                println!("sent call {} to tool {} for a result of type {}", call.number, call.tool, call.result);
                print_rows(call.rows.iter().copied());
                waiting.push(call);
            }
            Answer::Value => {
                println!("value after {steps} steps");
                print_rows(record.rows());
                return Ok(ExitCode::SUCCESS);
            }
            Answer::Budget => {}
            // The last call sent is replied to first: replies may come in any order.
            stopped => match waiting.pop() {
                Some(call) => {
                    tca::reply(&mut record, &mut work, &call.reply(&[answer(&call)]))?;
                    println!("took the reply to call {}", call.number);
                }
                None => {
                    println!("stopped with answer {}", stopped.number());
                    return Ok(ExitCode::FAILURE);
                }
            },
        }
    }
}

/// What the tool gives for the call.
fn answer(call: &Call) -> Row {
    match call.tool {
        LOOK => Row { kind: 3, n: 0, ty: call.result, word: 0 },
        _ => Row { kind: 1, n: 0, ty: call.result, word: 39 + call.number },
    }
}

fn print_rows(rows: impl Iterator<Item = Row>) {
    for (k, Row { kind, n, ty, word }) in rows.enumerate() {
        println!("  row {k}: kind {kind}, n {n}, type {ty}, word {word}");
    }
}
