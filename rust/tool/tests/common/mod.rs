//! What the tests of the program share: a folder of their own, the program, and what it said.

#![allow(dead_code)]

use std::fs;
use std::io::Write;
use std::os::unix::fs::PermissionsExt;
use std::path::{Path, PathBuf};
use std::process::{Command, Stdio};

/// A folder for one test, empty at its start.
pub fn folder(test: &str) -> PathBuf {
    let folder = Path::new(env!("CARGO_TARGET_TMPDIR")).join(test);
    let _ = fs::remove_dir_all(&folder);
    fs::create_dir_all(&folder).unwrap();
    folder
}

/// The program, in a folder.
pub fn tca(folder: &Path) -> Command {
    let mut command = Command::new(env!("CARGO_BIN_EXE_tca"));
    command.current_dir(folder);
    command
}

/// What the program said and how it ended.
#[derive(Debug)]
pub struct Said {
    pub status: i32,
    pub out: String,
    pub err: String,
}

/// Runs the program with words parted by spaces and a text on its standard input.
pub fn said(folder: &Path, words: &str, input: &str) -> Said {
    let mut child = tca(folder)
        .args(words.split(' '))
        .stdin(Stdio::piped())
        .stdout(Stdio::piped())
        .stderr(Stdio::piped())
        .spawn()
        .unwrap();
    let _ = child.stdin.take().unwrap().write_all(input.as_bytes());
    let output = child.wait_with_output().unwrap();
    let text = |bytes: Vec<u8>| String::from_utf8(bytes).unwrap();
    Said { status: output.status.code().expect("an exit status"), out: text(output.stdout), err: text(output.stderr) }
}

/// A script that can be run.
pub fn script(folder: &Path, name: &str, text: &str) {
    let path = folder.join(name);
    fs::write(&path, text).unwrap();
    fs::set_permissions(&path, fs::Permissions::from_mode(0o755)).unwrap();
}

pub const SETTLE: &str = include_str!("../../../../examples/settle/settle.txt");
