//! The commands from outside: what they print, write, leave alone and end with.

#![cfg_attr(not(feature = "run"), allow(unused_imports))]

mod common;

use std::fs::{self, File};
use std::path::Path;
use std::process::Stdio;
use std::thread::sleep;
use std::time::Duration;

use common::{folder, said, script, tca, SETTLE};

/// A folder with the settle routine, made.
fn with_settle(test: &str) -> std::path::PathBuf {
    let folder = folder(test);
    fs::write(folder.join("settle.txt"), SETTLE).unwrap();
    let made = said(&folder, "make settle.txt -o settle", "");
    assert_eq!((made.status, made.out.as_str()), (0, "settle: made: 5 types, 11 rows, 278 bytes\n"), "{made:?}");
    folder
}

fn bytes(folder: &Path, name: &str) -> Vec<u8> {
    fs::read(folder.join(name)).unwrap()
}

#[test]
fn help_is_asked_for_and_usage_is_not() {
    let folder = folder("help");
    for words in ["--help", "-h", "help", "play --help", "check x --help"] {
        let said = said(&folder, words, "");
        assert_eq!((said.status, said.err.as_str()), (0, ""), "{words}");
        assert!(said.out.contains("tca "), "{words}: {}", said.out);
    }
    for words in [
        "frob",
        "check",
        "check a b",
        "show x --as tree",
        "show --types",
        #[cfg(feature = "run")]
        "run r --budget many",
        "make x",
        "play x --tool y",
    ] {
        let said = said(&folder, words, "");
        assert_eq!((said.status, said.out.as_str()), (2, ""), "{words}");
        assert!(said.err.contains("tca "), "{words}: {}", said.err);
    }
}

#[test]
fn a_file_that_cannot_be_read_is_named() {
    let folder = folder("unread");
    let with_run: &[&str] = if cfg!(feature = "run") { &["run none", "play none"] } else { &[] };
    for words in
        ["check none", "show none", "make none -o x", "load none r", "reply none x", "check ."].iter().chain(with_run)
    {
        let said = said(&folder, words, "");
        assert_eq!((said.status, said.out.as_str()), (2, ""), "{words}");
        assert!(said.err.starts_with("tca: none: ") || *words == "check .", "{words}: {}", said.err);
    }
}

/// Where the library has no run, that is said, and no file is touched.
#[test]
#[cfg(not(feature = "run"))]
fn without_run_nothing_is_run_or_played() {
    let folder = with_settle("no-run");
    assert_eq!(said(&folder, "load settle r", "").out, "r: loaded: 5 types, 11 rows\n");
    let before = bytes(&folder, "r");
    for words in ["run r", "run none", "play settle", "play settle --record r", "play settle --tools ./none"] {
        let said = said(&folder, words, "");
        assert_eq!((said.status, said.out.as_str()), (2, ""), "{words}");
        assert!(said.err.starts_with("tca: this library has no run yet") && said.err.lines().count() == 1, "{said:?}");
    }
    assert!(bytes(&folder, "r") == before && !folder.join("r.calls").exists());
}

/// A record of let p = scan() in {p, p} as a run leaves it that has sent both calls, made by the evaluator.
fn with_two_open_calls(test: &str) -> std::path::PathBuf {
    let folder = folder(test);
    fs::write(folder.join("pair.txt"), "tool scan = 1 : foreign() -> Str\ntype B = Bool\nterm let p = scan() {p, p}")
        .unwrap();
    assert_eq!(said(&folder, "make pair.txt -o pair", "").status, 0);
    assert_eq!(said(&folder, "load pair r", "").status, 0);
    let (mut record, mut work) = (bytes(&folder, "r"), vec![0; library::WORK_BYTES]);
    for _ in 0..2 {
        evaluator::run(&mut record, &mut work, 1_000);
    }
    fs::write(folder.join("r"), record).unwrap();
    folder
}

#[test]
fn replies_are_taken_once_each_in_any_order() {
    let folder = with_two_open_calls("replies");
    let waiting = bytes(&folder, "r");
    for (words, input) in [
        ("load pair r", ""),
        ("reply r pair", ""),
        ("reply r - --text", "reply 1 true"),
        ("reply r - --text", "reply 3 str 1"),
        ("reply r - --text", "str 1"),
        ("reply r - --text", "str"),
    ] {
        let said = said(&folder, words, input);
        assert_eq!(said.status, 1, "{words} {input}: {said:?}");
        assert!(bytes(&folder, "r") == waiting, "{words} {input}");
    }
    assert!(said(&folder, "show r", "").out.contains("call 2 : Str, at row 2\n"));
    fs::write(folder.join("reply"), [2, 0, 0, 0, 1, 0, 0, 0, 1, 0, 0, 0, 41, 0, 0, 0]).unwrap();
    let shown = said(&folder, "show reply --as reply --types r", "");
    assert!(shown.out.contains("this record would take it") && shown.out.contains("str 41 : Str"), "{shown:?}");
    let taken = said(&folder, "reply r reply", "");
    assert!(taken.status == 0 && taken.out.starts_with("r: the reply to call 2 is taken\n"), "{taken:?}");
    let again = said(&folder, "reply r reply", "");
    assert!(again.status == 1 && again.err.contains("(refusal 12)"), "{again:?}");
    assert_eq!(said(&folder, "reply r - --text", "str 40").status, 0);
    let shown = said(&folder, "show r", "");
    assert!(shown.status == 0 && shown.out.contains("str 40 : Str") && shown.out.contains("str 41 : Str"), "{shown:?}");
    // What is no record, or not sound, stays as it is.
    assert_eq!(said(&folder, "load pair pair", "").status, 2);
    let mut damaged = waiting.clone();
    damaged[12] = 0;
    fs::write(folder.join("damaged"), &damaged).unwrap();
    let refused = said(&folder, "reply damaged reply", "");
    assert!(refused.status == 1 && refused.err.contains("(refusal 10)"), "{refused:?}");
    assert!(bytes(&folder, "damaged") == damaged);
    let shown = said(&folder, "show damaged", "");
    assert!(shown.status == 1 && shown.out.contains("(refusal 10)"), "{shown:?}");
}

#[test]
#[cfg(feature = "run")]
fn a_routine_is_run_call_by_call() {
    let folder = with_settle("call-by-call");
    assert_eq!(said(&folder, "load settle r", "").out, "r: loaded: 5 types, 11 rows\nnext: `tca run r`\n");
    let ran = said(&folder, "run r --call first", "");
    assert!(ran.out.starts_with("r: 2 steps, SENT: call 1: tool 1()\nnext: hand first to its tool"), "{ran:?}");
    assert_eq!(bytes(&folder, "first"), [1, 0, 0, 0, 1, 0, 0, 0, 0, 0, 0, 0]);
    assert_eq!(bytes(&folder, "r.calls/1.call"), bytes(&folder, "first"));
    let waits = said(&folder, "run r", "");
    assert_eq!((waits.status, waits.out.as_str()), (0, "r: 0 steps, WAITING: it waits for replies, to call 1\n"));
    let shown = said(&folder, "show r", "");
    assert!(shown.out.contains("#   call 1 of tool 1 : Str, at row 3\n"), "{shown:?}");
    // A reply in bytes, then replies in text.
    fs::write(folder.join("reply"), [1, 0, 0, 0, 1, 0, 0, 0, 1, 0, 0, 0, 16, 4, 0, 0]).unwrap();
    let shown = said(&folder, "show reply --as reply --types r", "");
    assert!(shown.out.contains("this record would take it") && shown.out.contains("str 1040 : Str"), "{shown:?}");
    assert_eq!(said(&folder, "reply r reply", "").status, 0);
    assert!(!folder.join("r.calls/1.call").exists());
    assert!(said(&folder, "run r", "").out.contains("call 2: tool 2(str 1040)"));
    assert_eq!(said(&folder, "reply r - --text", "reply 2 true").status, 0);
    assert!(said(&folder, "run r", "").out.contains("call 3: tool 1()"));
    // What `show` prints of a reply is a reply in text.
    fs::write(folder.join("later"), [3, 0, 0, 0, 1, 0, 0, 0, 1, 0, 0, 0, 41, 4, 0, 0]).unwrap();
    let later = said(&folder, "show later --as reply", "");
    assert!(later.out.ends_with("reply 3\n   0 | str 1065 : t0\n"), "{later:?}");
    assert_eq!(said(&folder, "reply r - --text", &later.out).status, 0);
    assert!(said(&folder, "run r", "").out.contains("call 4: tool 3(str 1065)"));
    assert_eq!(said(&folder, "reply r - --text", "str 1065").status, 0);
    let ended = said(&folder, "run r", "");
    assert_eq!(ended.out, "r: 0 steps, VALUE: at its end: the term is a value\nvalue: str 1065\n");
}

#[test]
#[cfg(feature = "run")]
fn a_refusal_leaves_the_file_as_it_was() {
    let folder = with_settle("refusals");
    said(&folder, "load settle r", "");
    said(&folder, "run r", "");
    let record = bytes(&folder, "r");
    let mut bad = bytes(&folder, "settle");
    bad[200] = 9;
    fs::write(folder.join("bad"), &bad).unwrap();
    fs::write(folder.join("reply"), [9; 16]).unwrap();
    for (words, input) in [
        ("load bad r --over", ""),
        ("load settle r", ""),
        ("reply r reply", ""),
        ("reply r - --text", "true"),
        ("reply r - --text", "reply 2 str 1"),
        ("reply r - --text", "str"),
    ] {
        let said = said(&folder, words, input);
        assert_eq!(said.status, 1, "{words}: {said:?}");
        assert!(bytes(&folder, "r") == record, "{words}");
        assert!(
            said.err.contains("next: ") || said.err.contains("not loaded") || said.err.contains("--over"),
            "{said:?}"
        );
    }
    // What is no record is never written over.
    assert_eq!(said(&folder, "load settle bad", "").status, 2);
    assert!(bytes(&folder, "bad") == bad);
    // A record that is not sound stays as it is, for all commands.
    let mut damaged = record.clone();
    damaged[12] = 0;
    fs::write(folder.join("damaged"), &damaged).unwrap();
    for words in ["run damaged", "reply damaged reply", "play settle --record damaged"] {
        let said = said(&folder, words, "");
        assert_eq!(said.status, 1, "{words}: {said:?}");
        assert!(said.err.contains("next number is 0") || said.err.contains("refusal 10"), "{said:?}");
        assert!(bytes(&folder, "damaged") == damaged, "{words}");
    }
    assert_eq!(said(&folder, "load settle r --over", "").status, 0);
    assert!(!folder.join("r.calls").exists());
}

#[test]
#[cfg(feature = "run")]
fn two_processes_wait_for_each_other() {
    let folder = with_settle("lock");
    said(&folder, "load settle r", "");
    let before = bytes(&folder, "r");
    let lock = File::open(folder.join("r.lock")).unwrap();
    lock.lock().unwrap();
    let waiting = tca(&folder).args(["run", "r"]).stdout(Stdio::piped()).stderr(Stdio::piped()).spawn().unwrap();
    sleep(Duration::from_millis(150));
    assert!(bytes(&folder, "r") == before);
    lock.unlock().unwrap();
    let ran = waiting.wait_with_output().unwrap();
    assert!(ran.status.success());
    assert!(String::from_utf8_lossy(&ran.stderr).contains("waiting for another tca"));
    assert!(bytes(&folder, "r") != before);
    // Many at once on one record: each call is sent once, and all are kept.
    let eight = "tool scan = 1 : foreign(t: Str) -> Str\nterm apply 1 zip 1 scan [str 1, str 2, str 3, str 4, str 5, str 6, str 7, str 8]";
    fs::write(folder.join("eight.txt"), eight).unwrap();
    said(&folder, "make eight.txt -o eight", "");
    said(&folder, "load eight e", "");
    let runs: Vec<_> =
        (0..8).map(|_| tca(&folder).args(["run", "e"]).stdout(Stdio::piped()).spawn().unwrap()).collect();
    let mut sent: Vec<String> =
        runs.into_iter().map(|run| String::from_utf8(run.wait_with_output().unwrap().stdout).unwrap()).collect();
    sent.sort();
    for (k, text) in sent.iter().enumerate() {
        assert!(text.contains(&format!("call {}: tool 1(str {})", k + 1, k + 1)), "{sent:?}");
        assert!(folder.join(format!("e.calls/{}.call", k + 1)).exists());
    }
}

#[test]
#[cfg(feature = "run")]
fn a_link_is_followed_and_not_replaced() {
    let folder = with_settle("link");
    said(&folder, "load settle r", "");
    std::os::unix::fs::symlink("r", folder.join("link")).unwrap();
    said(&folder, "run link", "");
    assert!(fs::symlink_metadata(folder.join("link")).unwrap().is_symlink());
    assert!(said(&folder, "show r", "").out.contains("call 1 of tool 1"));
}

#[test]
#[cfg(feature = "run")]
fn played_at_the_terminal_in_any_order() {
    let folder = folder("terminal");
    let pair = "tool scan = 1 : foreign() -> Str\nterm let p = scan() {p, p, [p]}";
    fs::write(folder.join("pair.txt"), pair).unwrap();
    said(&folder, "make pair.txt -o pair", "");
    let played = said(&folder, "play pair", "3 str 7\nnonsense here\n\n9 str 1\n2: true\n2 str 41\nstr 40\n");
    assert_eq!(played.status, 0, "{played:?}");
    assert!(played.out.ends_with("value: {str 40, str 41, [str 7]} : {Str, Str, List Str}\n"), "{played:?}");
    assert!(played.out.contains("call 9 is not open") && played.out.contains("not taken: "), "{played:?}");
    // The input ends before the routine does; with a record it is taken up again.
    let stopped = said(&folder, "play pair --record r", "2 str 41\n");
    assert_eq!(stopped.status, 1);
    assert!(stopped.out.contains("stopped before its end, WAITING: no reply to calls 1, 3;"), "{stopped:?}");
    let ended = said(&folder, "play pair --record r", "str 40\nstr 7\n");
    assert_eq!(ended.status, 0);
    assert!(ended.out.contains("call 1: tool 1() (again)\ncall 3: tool 1() (again)\n"), "{ended:?}");
    assert!(ended.out.ends_with("value: {str 40, str 41, [str 7]} : {Str, Str, List Str}\n"), "{ended:?}");
    // A record of another routine is not taken up.
    let settle = with_settle("terminal-other");
    fs::copy(folder.join("pair"), settle.join("pair")).unwrap();
    said(&settle, "load settle r", "");
    assert_eq!(said(&settle, "play pair --record r", "").status, 2);
}

#[test]
#[cfg(feature = "run")]
fn a_tool_that_fails_leaves_its_call_open() {
    let folder = with_settle("failing");
    script(&folder, "fails", "#!/bin/sh\nexit 3\n");
    script(&folder, "lies", "#!/bin/sh\necho true\n");
    script(&folder, "no-interpreter", "#!/no/such\n");
    script(&folder, "raves", "#!/bin/sh\necho str\n");
    for (program, words) in [
        ("./fails", "call 1: no reply: ./fails ended with exit status: 3"),
        ("./no-interpreter", "call 1: no reply: ./no-interpreter cannot be started"),
        ("./lies", "call 1: no reply: reply row 0: the types do not fit"),
        ("./raves", "call 1: no reply: its text cannot be read: line 1, column"),
    ] {
        let played = said(&folder, &format!("play settle --record r --tools {program}"), "");
        assert_eq!(played.status, 1, "{played:?}");
        assert!(played.out.contains(words) && played.out.contains("no reply to call 1"), "{played:?}");
    }
    let first = fs::read_to_string(folder.join("r.calls/1.ticket")).unwrap();
    assert_eq!(first.len(), 16);
    for program in ["fails", "./none"] {
        let played = said(&folder, &format!("play settle --record r --tools {program}"), "");
        assert_eq!((played.status, played.out.as_str()), (2, ""), "{played:?}");
    }
}

#[test]
#[cfg(feature = "run")]
fn a_function_is_a_value_too() {
    let folder = folder("function");
    fs::write(folder.join("f.txt"), "term native(x: Str) x").unwrap();
    said(&folder, "make f.txt -o f", "");
    let played = said(&folder, "play f", "");
    assert_eq!(
        played.out,
        "value, of type native(n1: Str) -> Str:\n   0 | native : native(n1: Str) -> Str\n   1 |   n1 : Str\n"
    );
}

#[test]
#[cfg(feature = "run")]
fn a_call_answered_from_elsewhere_is_left_aside() {
    let folder = with_settle("elsewhere");
    script(&folder, "slow", "#!/bin/sh\nif grep -q 'tool 1'; then sleep 0.4; echo str 5; else exit 1; fi\n");
    let mut play = tca(&folder)
        .args(["play", "settle", "--record", "r", "--tools", "./slow"])
        .stdin(Stdio::null())
        .stdout(Stdio::piped())
        .spawn()
        .unwrap();
    while !folder.join("r.calls/1.call").exists() {
        assert!(play.try_wait().unwrap().is_none());
        sleep(Duration::from_millis(5));
    }
    sleep(Duration::from_millis(50));
    assert_eq!(said(&folder, "reply r - --text", "str 4").status, 0);
    let out = String::from_utf8(play.wait_with_output().unwrap().stdout).unwrap();
    assert!(out.contains("reply 1: left aside") && out.contains("call 2: tool 2(str 4)"), "{out}");
}

#[test]
#[cfg(feature = "run")]
fn a_reply_without_room_is_put_off() {
    let folder = folder("room");
    let list = |count: usize| format!("[{}]", vec!["str 7"; count].join(", "));
    // Two replies are awaited in a term of 1,808 rows; the one of 251 rows fits only when the other has come.
    let routine = format!(
        "tool wide = 1 : foreign() -> List Str tool done = 2 : foreign() -> Bool
         term let big = {} {{wide(), if done() [] : List Str big, big, big}}",
        list(300)
    );
    fs::write(folder.join("r.txt"), routine).unwrap();
    let tools = format!("#!/bin/sh\nif grep -q 'tool 1'; then echo '{}'; else sleep 0.3; echo true; fi\n", list(125));
    script(&folder, "tools", &tools);
    assert_eq!(said(&folder, "make r.txt -o r", "").status, 0);
    let played = said(&folder, "play r --tools ./tools", "");
    assert_eq!(played.status, 0, "{played:?}");
    assert!(played.out.contains("reply 1: put off: ") && played.out.contains("(refusal 16)"), "{played:?}");
    assert!(played.out.lines().rev().nth(1).is_some_and(|line| line.starts_with("reply 1: [str 7, ")), "{played:?}");
}
