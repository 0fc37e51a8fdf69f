//! The README shows commands with their real output: each is done again, in order, and must say the same.

mod common;

use std::fs;
use std::os::unix::fs::symlink;
use std::path::Path;
use std::process::Command;

use common::folder;

/// What stands behind this heading needs the library's run.
const WITH_RUN: &str = "\n### Run and play";

#[test]
fn the_readme_shows_real_output() {
    let root = Path::new(env!("CARGO_MANIFEST_DIR")).join("../..");
    let folder = folder("readme");
    symlink(root.join("examples").canonicalize().unwrap(), folder.join("examples")).unwrap();
    let programs = Path::new(env!("CARGO_BIN_EXE_tca")).parent().unwrap();
    let path = format!("{}:{}", programs.display(), std::env::var("PATH").unwrap());
    let page = fs::read_to_string(root.join("README.md")).unwrap();
    let (today, _) = page.split_once(WITH_RUN).expect("the section of run and play");
    let commands = commands(if cfg!(feature = "run") { &page } else { today });
    for (command, shown) in &commands {
        let output = Command::new("bash")
            .args(["-c", &format!("exec 2>&1; {command}")])
            .current_dir(&folder)
            .env("PATH", &path)
            .output()
            .unwrap();
        let said = String::from_utf8(output.stdout).unwrap();
        assert_eq!(said.trim_end(), shown.trim_end(), "$ {command}");
    }
    let with_run: &[&str] = if cfg!(feature = "run") { &["run", "play"] } else { &[] };
    for name in ["check", "show", "make", "load", "reply"].iter().chain(with_run) {
        let is_shown = commands.iter().any(|(command, _)| command.contains(&format!("tca {name} ")));
        assert!(is_shown, "the README lacks `tca {name}`");
    }
}

/// The commands of a page, each with the lines shown below it.
fn commands(page: &str) -> Vec<(String, String)> {
    let mut commands: Vec<(String, String)> = Vec::new();
    let mut inside = false;
    for line in page.lines() {
        if let Some(command) = line.strip_prefix("    $ ") {
            commands.push((command.to_string(), String::new()));
            inside = true;
        } else if !line.is_empty() && !line.starts_with("    ") {
            inside = false;
        } else if let (true, Some((_, shown))) = (inside, commands.last_mut()) {
            shown.push_str(line.strip_prefix("    ").unwrap_or(line));
            shown.push('\n');
        }
    }
    commands
}
