//! The program `tca`.

use std::io;
use std::process::ExitCode;

use tca_tool::commands::command;

fn main() -> ExitCode {
    let words: Vec<String> = std::env::args_os().skip(1).map(|word| word.to_string_lossy().into_owned()).collect();
    match command(&words, &mut io::stdout().lock(), &mut io::stderr()) {
        Ok(status) => ExitCode::from(status as u8),
        // Nobody reads any more.
        Err(error) if error.kind() == io::ErrorKind::BrokenPipe => ExitCode::SUCCESS,
        Err(error) => {
            eprintln!("tca: {error}");
            ExitCode::from(2)
        }
    }
}
