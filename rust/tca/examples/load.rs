//! Loads a program file and says `accepted`, or why it is refused and at which row.

use std::process::ExitCode;

fn main() -> ExitCode {
    let Some(name) = std::env::args_os().nth(1) else {
        eprintln!("usage: load FILE");
        return ExitCode::from(2);
    };
    let file = match std::fs::read(&name) {
        Ok(file) => file,
        Err(error) => {
            eprintln!("{}: {error}", name.to_string_lossy());
            return ExitCode::from(2);
        }
    };
    match tca::load(&file) {
        Ok(_) => {
            println!("accepted");
            ExitCode::SUCCESS
        }
        Err(refused) => {
            println!("refused: {refused}");
            ExitCode::FAILURE
        }
    }
}
