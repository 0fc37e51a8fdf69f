//! The commands: what each takes, and how it ends.

mod keeping;
mod reading;

use std::fs;
use std::io::{self, Read, Write};
use std::path::Path;

use crate::options::{sorted, Given, Takes};
use crate::routine::Trouble;

/// How a command ends.
#[derive(Clone, Copy, Debug, PartialEq, Eq)]
pub enum Status {
    Done = 0,
    Refused = 1,
    WrongUse = 2,
}

/// Why a command did not come to an end of its own.
#[derive(Debug)]
pub enum Failure {
    /// Wrong use; the usage is printed behind the words.
    Usage(String),
    /// A file that cannot be read or written.
    File(io::Error),
    /// A refusal of the library.
    Refused(library::Refused),
    /// The words are all there is to say.
    Words(Status, String),
}

impl From<io::Error> for Failure {
    fn from(error: io::Error) -> Failure {
        Failure::File(error)
    }
}

impl From<Trouble> for Failure {
    fn from(trouble: Trouble) -> Failure {
        match trouble {
            Trouble::File(error) => Failure::File(error),
            Trouble::Refused(refused) => Failure::Refused(refused),
        }
    }
}

type Ending = Result<Status, Failure>;

type Does = fn(&Given, &mut dyn Write) -> Ending;

const COMMANDS: [(Takes, Does); 7] = [
    (
        Takes {
            name: "check",
            usage: "tca check FILE\n  says whether the library accepts a program file, and if not why and where\n",
            files: 1,
            with_word: &[],
            alone: &[],
        },
        reading::check_file,
    ),
    (
        Takes {
            name: "show",
            usage: "tca show FILE [--as program|record|reply|call] [--types RECORD]\n  \
                    prints a program file, run record, reply or sent call as text\n",
            files: 1,
            with_word: &["--as", "--types"],
            alone: &[],
        },
        reading::show_file,
    ),
    (
        Takes {
            name: "make",
            usage: "tca make TEXT -o FILE [--anyway]\n  \
                    makes a program file of a routine in text; with --anyway also one that the library refuses\n",
            files: 1,
            with_word: &["-o"],
            alone: &["--anyway"],
        },
        reading::make,
    ),
    (
        Takes {
            name: "load",
            usage: "tca load FILE RECORD [--over]\n  \
                    loads a program file into a record; with --over also into one with open calls, which are then forgotten\n",
            files: 2,
            with_word: &[],
            alone: &["--over"],
        },
        keeping::load,
    ),
    (
        Takes {
            name: "run",
            usage: "tca run RECORD [--budget N] [--call FILE]\n  \
                    runs a record, at most N steps (1,000,000), up to its next call, which goes to FILE, too\n",
            files: 1,
            with_word: &["--budget", "--call"],
            alone: &[],
        },
        keeping::run,
    ),
    (
        Takes {
            name: "reply",
            usage: "tca reply RECORD REPLY [--text]\n  \
                    takes a reply into a record; with --text one that is written as text, as `reply 3 str 41`\n",
            files: 2,
            with_word: &[],
            alone: &["--text"],
        },
        keeping::reply,
    ),
    (
        Takes {
            name: "play",
            usage: "tca play FILE [--tools PROGRAM] [--record RECORD]\n  \
                    runs a routine to its end; PROGRAM answers its calls, or you at the terminal; with --record it can be\n  \
                    stopped at any moment and taken up again by the same command\n",
            files: 1,
            with_word: &["--tools", "--record"],
            alone: &[],
        },
        keeping::play_file,
    ),
];

/// All usages.
pub fn usage() -> String {
    let mut text =
        "tca: attachment routines, checked, shown, made, kept and played over the proved library\n\n".to_string();
    COMMANDS.iter().for_each(|(takes, _)| text += takes.usage);
    text += "\nA FILE, TEXT or REPLY of `-` is standard input. Exit status: 0 done, 1 refused, 2 wrong use or a file that\n\
             cannot be read.\n";
    text
}

/// Does what the words say. Text for people goes to `out`, trouble to `err`.
pub fn command(words: &[String], out: &mut dyn Write, err: &mut dyn Write) -> io::Result<Status> {
    let asks_help = |word: &String| word == "--help" || word == "-h";
    let Some((name, rest)) = words.split_first() else {
        write!(err, "tca: which command?\n\n{}", usage())?;
        return Ok(Status::WrongUse);
    };
    if asks_help(name) || name == "help" {
        write!(out, "{}", usage())?;
        return Ok(Status::Done);
    }
    let Some((takes, run)) = COMMANDS.iter().find(|(takes, _)| takes.name == name) else {
        write!(err, "tca: there is no command `{name}`\n\n{}", usage())?;
        return Ok(Status::WrongUse);
    };
    if rest.iter().any(asks_help) {
        write!(out, "{}", takes.usage)?;
        return Ok(Status::Done);
    }
    let ended = sorted(takes, rest).map_err(Failure::Usage).and_then(|given| run(&given, out));
    match ended {
        Ok(status) => Ok(status),
        Err(Failure::File(error)) if error.kind() == io::ErrorKind::BrokenPipe => Err(error),
        Err(Failure::File(error)) => {
            writeln!(err, "tca: {error}")?;
            Ok(Status::WrongUse)
        }
        Err(Failure::Usage(words)) => {
            write!(err, "tca: {words}\nusage: {}", takes.usage)?;
            Ok(Status::WrongUse)
        }
        Err(Failure::Refused(refused)) => {
            writeln!(err, "tca: refused: {refused}")?;
            Ok(Status::Refused)
        }
        Err(Failure::Words(status, words)) => {
            writeln!(err, "tca: {words}")?;
            Ok(status)
        }
    }
}

fn read(name: &str) -> io::Result<Vec<u8>> {
    if name == "-" {
        let mut bytes = Vec::new();
        io::stdin().lock().read_to_end(&mut bytes)?;
        return Ok(bytes);
    }
    crate::keep::named(Path::new(name), fs::read(name))
}

fn read_text(name: &str) -> Result<String, Failure> {
    let not_text = || {
        Failure::Words(
            Status::Refused,
            format!("{name} is no text (it is not UTF-8); is it a program file? `tca show` shows those"),
        )
    };
    String::from_utf8(read(name)?).map_err(|_| not_text())
}

fn print(out: &mut dyn Write, lines: &[String]) -> io::Result<()> {
    lines.iter().try_for_each(|line| writeln!(out, "{line}"))
}
