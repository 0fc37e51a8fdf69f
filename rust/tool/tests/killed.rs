//! Killed at any moment of a kept play, the record is sound, no call is lost, and none goes out under another number.

#![cfg(feature = "run")]

mod common;

use std::collections::{HashMap, HashSet};
use std::fs;
use std::path::Path;
use std::process::Stdio;
use std::thread::sleep;
use std::time::{Duration, Instant};

use common::{folder, said, script, tca};
use evaluator::random::Random;
use library::{Call, Record, Work};
use tca_tool::play::request;

/// Six places at once, each measured, then saved: twelve calls, of which six may be open.
const ROUTINE: &str = "
tool scan = 1 : foreign(teat: Str) -> Str
tool save = 2 : foreign(teat: Str, place: Str) -> Str
term
let teats = [str 1, str 2, str 3, str 4, str 5, str 6]
apply 2 zip 1,2 save teats apply 1 zip 1 scan teats
";

/// Writes each call that it sees into a file of its own, then answers 10 times the last argument.
const TOOLS: &str = "#!/bin/sh
text=$(cat)
number=${text#call }
number=${number%%[!0-9]*}
printf '%s\\n' \"$text\" > seen/writing.$$
mv seen/writing.$$ seen/$number.$$
echo \"str ${text##*argument str }0\"
";

const VALUE: &str = "value: [str 100, str 200, str 300, str 400, str 500, str 600] : List Str";

#[test]
fn killed_at_any_moment_no_call_is_lost_or_renamed() {
    let folder = folder("killed");
    let mut random = Random::new(5);
    fs::write(folder.join("routine.txt"), ROUTINE).unwrap();
    script(&folder, "tools", TOOLS);
    assert_eq!(said(&folder, "make routine.txt -o routine", "").status, 0);
    // How long a play takes here tells when to kill.
    begin_anew(&folder);
    let start = Instant::now();
    come_to_the_end(&folder);
    let whole = start.elapsed().as_micros() as usize;
    let (mut kills, mut again) = (0, 0);
    while kills < 200 {
        begin_anew(&folder);
        while kills < 200 && kill_after(&folder, Duration::from_micros(random.below(whole / 8) as u64)) {
            kills += 1;
            look_at(&folder);
        }
        again += come_to_the_end(&folder);
    }
    assert!(again > 20, "calls were handed over again {again} times");
}

/// Plays undisturbed; how often calls were seen again in all the plays up to the end.
fn come_to_the_end(folder: &Path) -> usize {
    let said = said(folder, PLAY, "");
    assert_eq!(said.status, 0, "{said:?}");
    assert_eq!(said.out.lines().last(), Some(VALUE), "{}", said.out);
    let record = Record::from_bytes(&fs::read(folder.join("record")).unwrap()).unwrap();
    assert_eq!(record.open_calls().count(), 0);
    look_at(folder)
}

const PLAY: &str = "play routine --tools ./tools --record record";

fn begin_anew(folder: &Path) {
    // A tool of the play before may still be writing: it gets a folder of its own.
    let _ = fs::rename(folder.join("seen"), folder.join(format!("seen-{}", fs::read_dir(folder).unwrap().count())));
    fs::create_dir(folder.join("seen")).unwrap();
    let _ = fs::remove_file(folder.join("record"));
    let _ = fs::remove_dir_all(folder.join("record.calls"));
}

/// Plays and kills; whether the play was still going then.
fn kill_after(folder: &Path, after: Duration) -> bool {
    let mut child = tca(folder)
        .args(PLAY.split(' '))
        .stdin(Stdio::null())
        .stdout(Stdio::null())
        .stderr(Stdio::null())
        .spawn()
        .unwrap();
    sleep(after);
    let going = child.try_wait().unwrap().is_none();
    child.kill().unwrap();
    child.wait().unwrap();
    going
}

/// Looks at the record and at what the tools saw; how often a call was seen again.
fn look_at(folder: &Path) -> usize {
    // What the tools saw is read first: all of it must be in the record that is read after.
    let seen = seen_calls(&folder.join("seen"));
    let Ok(bytes) = fs::read(folder.join("record")) else {
        assert!(seen.is_empty(), "a tool saw a call before there was a record");
        return 0;
    };
    let record = Record::from_bytes(&bytes).expect("a whole record");
    library::run(&mut record.clone(), &mut Work::new(), 0).expect("a sound record");
    let next = tca_tool::bytes::RecordHead::read(&bytes).next;
    let mut tickets = HashSet::new();
    for (number, texts) in &seen {
        assert!(*number < next, "call {number} was seen, and the record has not sent it");
        assert!(texts.iter().all(|(text, _)| *text == texts[0].0), "call {number} went out in two ways: {texts:?}");
        assert!(texts.iter().filter(|(_, again)| !again).count() <= 1, "call {number} was new twice");
        assert!(tickets.insert(texts[0].0.lines().nth(1).map(str::to_string)), "two calls with one ticket");
    }
    for open in record.open_calls() {
        let call = fs::read(folder.join(format!("record.calls/{}.call", open.number))).expect("the call's bytes");
        let ticket =
            fs::read_to_string(folder.join(format!("record.calls/{}.ticket", open.number))).expect("its ticket");
        let call = Call::from_bytes(&call).expect("a whole call");
        assert_eq!(call.number, open.number);
        if let Some(texts) = seen.get(&open.number) {
            let kept = request(&tca_tool::keep::KeptCall { call, ticket }, "Str", false);
            assert_eq!(without_again(&kept).0, texts[0].0, "call {} is kept as another", open.number);
        }
    }
    seen.values().map(|texts| texts.len() - 1).sum()
}

/// All that was seen of each call: its text but for the line that says whether it is new, and that.
fn seen_calls(seen: &Path) -> HashMap<u32, Vec<(String, bool)>> {
    let mut calls: HashMap<u32, Vec<(String, bool)>> = HashMap::new();
    for entry in fs::read_dir(seen).unwrap() {
        let entry = entry.unwrap();
        let name = entry.file_name().into_string().unwrap();
        let Some(number) = name.split('.').next().and_then(|number| number.parse().ok()) else { continue };
        let Ok(text) = fs::read_to_string(entry.path()) else { continue };
        calls.entry(number).or_default().push(without_again(&text));
    }
    calls
}

fn without_again(text: &str) -> (String, bool) {
    let lines: Vec<&str> = text.lines().filter(|line| !line.starts_with("again ")).collect();
    (lines.join("\n"), text.contains("again yes"))
}
