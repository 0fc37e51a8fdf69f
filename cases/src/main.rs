//! Makes a program file of each case of a description, gives it to a program on its standard input, from a file and through
//! a pipe in pieces, and compares the line that the program prints.

mod describe;

use std::fs::File;
use std::io::{self, Read, Write};
use std::path::Path;
use std::process::{Child, Command, ExitCode, Stdio};
use std::time::{Duration, Instant};

use describe::{cases_of, Case};

/// A program that has not ended by then is wrong.
const PATIENCE: Duration = Duration::from_secs(20);

fn main() -> ExitCode {
    let words: Vec<String> = std::env::args().skip(1).collect();
    let [description, folder, program, arguments @ ..] = &words[..] else {
        eprintln!("usage: cases DESCRIPTION FOLDER PROGRAM [WORDS]");
        return ExitCode::from(2);
    };
    match checked(Path::new(description), Path::new(folder), program, arguments) {
        Ok(count) => {
            println!("{count} cases as expected, each from a file and through a pipe");
            ExitCode::SUCCESS
        }
        Err(fault) => {
            eprintln!("{fault}");
            ExitCode::FAILURE
        }
    }
}

/// How many cases there are, if the program prints the line of each.
fn checked(description: &Path, folder: &Path, program: &str, arguments: &[String]) -> Result<usize, String> {
    let text = std::fs::read_to_string(description).map_err(|e| format!("{}: {e}", description.display()))?;
    let cases = cases_of(&text).map_err(|fault| format!("{}: {fault}", description.display()))?;
    std::fs::create_dir_all(folder).map_err(|e| format!("{}: {e}", folder.display()))?;
    for case in &cases {
        let path = folder.join(&case.name);
        std::fs::write(&path, &case.file).map_err(|e| format!("{}: {e}", path.display()))?;
        let command = || {
            let mut command = Command::new(program);
            command.args(arguments).stdout(Stdio::piped());
            command
        };
        let from_file = File::open(&path).and_then(|file| command().stdin(file).spawn()).and_then(printed);
        agrees(case, "from a file", from_file)?;
        agrees(
            case,
            "through a pipe",
            command().stdin(Stdio::piped()).spawn().and_then(|child| fed(child, &case.file)),
        )?;
    }
    Ok(cases.len())
}

fn agrees(case: &Case, way: &str, printed: io::Result<String>) -> Result<(), String> {
    let Case { name, prints, why, .. } = case;
    let printed = printed.map_err(|e| format!("{name}, {way}: {e}"))?;
    if printed == format!("{prints}\n") {
        return Ok(());
    }
    Err(format!(
        "{name}, {way}\n  should print: {prints:?} and a new line\n  but prints:   {printed:?}\n  because:      {why}"
    ))
}

/// Gives a program its input in pieces, with pauses, so that what it reads first is not all.
fn fed(mut child: Child, file: &[u8]) -> io::Result<String> {
    let mut into = child.stdin.take().expect("the input is piped");
    let second = file.len().min(60);
    let cuts = [0, second.min(1), second, (second + file.len()) / 2, file.len()];
    for piece in cuts.windows(2) {
        // A program that has its answer need not read on: a refused write is no fault.
        if into.write_all(&file[piece[0]..piece[1]]).and_then(|()| into.flush()).is_err() {
            break;
        }
        std::thread::sleep(Duration::from_millis(3));
    }
    drop(into);
    printed(child)
}

/// What a program has printed when it ends.
fn printed(mut child: Child) -> io::Result<String> {
    let start = Instant::now();
    while child.try_wait()?.is_none() {
        if start.elapsed() > PATIENCE {
            child.kill()?;
            child.wait()?;
            return Err(io::Error::other(format!("it has not ended after {} s", PATIENCE.as_secs())));
        }
        std::thread::sleep(Duration::from_micros(200));
    }
    let mut text = Vec::new();
    child.stdout.take().expect("the output is piped").read_to_end(&mut text)?;
    Ok(String::from_utf8_lossy(&text).into_owned())
}
