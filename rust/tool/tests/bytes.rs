//! Made programs come back from their text, and no damage of any sort of bytes makes `show` or `check` fail or talk on.

use std::ops::Range;
use std::thread;

use evaluator::layout::{
    u16_at, MAX_ROWS, RECORD_BYTES, RECORD_OPEN, RECORD_ROWS, RECORD_TYPES, ROW_BYTES, TYPE_BYTES,
};
use evaluator::make::files::{damage_bytes, damaged};
use evaluator::make::programs::program;
use evaluator::make::records::{damage, sound, WAYS};
use evaluator::make::replies::reply_for;
use evaluator::make::sessions::wish;
use evaluator::random::Random;
use tca_tool::check::check;
use tca_tool::judge::{program_reason, reply_reason, unsound};
use tca_tool::show::{show, Sort};
use tca_tool::text::read_program;

/// Does the numbered things of a test on both processors.
fn on_two_threads(count: u64, each: impl Fn(Range<u64>) + Sync) {
    thread::scope(|scope| {
        scope.spawn(|| each(0..count / 2));
        scope.spawn(|| each(count / 2..count));
    });
}

#[test]
fn make_of_show_gives_the_same_bytes() {
    on_two_threads(10_000, |numbers| {
        for number in numbers {
            let mut random = Random::numbered(71, number);
            let wish = wish(&mut random);
            let file = program(&mut random, wish).file();
            let text = show(&file, None, None, &[]).lines.join("\n");
            let made = read_program(&text).unwrap_or_else(|error| panic!("program {number}: {error}\n{text}"));
            assert!(made.file() == file, "program {number}\n{text}");
        }
    });
}

/// Made programs that the library refuses for a future or for their types come back, too.
#[test]
fn refused_programs_of_legal_form_come_back() {
    let mut came_back = 0;
    for number in 0..4_000 {
        let mut random = Random::numbered(72, number);
        let wish = wish(&mut random);
        let base = program(&mut random, wish);
        let file = damaged(&mut random, &base);
        if program_reason(&file).is_none_or(|reason| reason.refusal >= 8) {
            let text = show(&file, None, None, &[]).lines.join("\n");
            let made = read_program(&text).unwrap_or_else(|error| panic!("program {number}: {error}\n{text}"));
            assert!(made.file() == file, "program {number}\n{text}");
            came_back += 1;
        }
    }
    assert!(came_back > 1_000, "{came_back}");
}

#[test]
fn no_damage_makes_show_or_check_fail_or_talk_on() {
    on_two_threads(100_000, |numbers| {
        for number in numbers {
            let mut random = Random::numbered(73, number);
            let (bytes, sort, lender) = damaged_bytes(&mut random, number);
            look_at(&bytes, sort, lender.as_deref(), number);
        }
    });
}

/// Damaged bytes of one of the four sorts, and the record that lends them types; now and then bytes of any kind.
fn damaged_bytes(random: &mut Random, number: u64) -> (Vec<u8>, Sort, Option<Vec<u8>>) {
    let (mut bytes, sort, lender) = damaged_file(random, number);
    if random.one_in(16) {
        let from = random.below(bytes.len().min(30));
        match random.below(3) {
            0 => random.fill(&mut bytes[from..]),
            1 => bytes[from..].fill(random.below(24) as u8),
            // Small numbers, which are kinds, forms and counts more often.
            _ => bytes[from..].iter_mut().for_each(|byte| *byte = random.below(20) as u8 * random.below(2) as u8),
        }
    }
    (bytes, sort, lender)
}

fn damaged_file(random: &mut Random, number: u64) -> (Vec<u8>, Sort, Option<Vec<u8>>) {
    match number % 8 {
        0..=4 => {
            let wish = wish(random);
            let base = program(random, wish);
            (damaged(random, &base), Sort::Program, None)
        }
        5 => {
            let mut record = sound(random);
            let way = random.below(WAYS.len());
            damage(random, &mut record, way);
            if random.one_in(8) {
                record.truncate(random.below(RECORD_BYTES));
            }
            (record, Sort::Record, None)
        }
        6 => {
            let record = sound(random);
            let mut reply = reply_for(random, &record);
            if random.one_in(3) && reply.len() > 8 {
                damage_bytes(random, &mut reply);
            }
            (reply, Sort::Reply, Some(record))
        }
        _ => {
            let record = sound(random);
            let mut call = 5u32.to_le_bytes().to_vec();
            call.extend(7u32.to_le_bytes());
            let rows = random.below(40);
            call.extend((rows as u16).to_le_bytes());
            call.extend([0, 0]);
            call.extend_from_slice(&record[RECORD_ROWS..RECORD_ROWS + rows * ROW_BYTES]);
            damage_bytes(random, &mut call);
            (call, Sort::Call, Some(record))
        }
    }
}

/// Shows and checks some bytes; the words that say why must agree with the library.
fn look_at(bytes: &[u8], sort: Sort, lender: Option<&[u8]>, number: u64) {
    // As what they are, and now and then by their looks.
    for taken in [Some(sort), None].into_iter().take(if number % 64 < 8 { 2 } else { 1 }) {
        let shown = show(bytes, taken, lender, &[]);
        let sort = taken.unwrap_or_else(|| tca_tool::show::sort_of(bytes).0);
        let most = readable(bytes, sort) + 40;
        assert!(
            shown.lines.len() <= most,
            "{number}: {} lines, at most {most}\n{}",
            shown.lines.len(),
            shown.lines.join("\n")
        );
        let told: Vec<&str> =
            shown.lines.iter().map(|line| line.split_once('|').map_or(&line[..], |(_, told)| told)).collect();
        let runs_on = told.windows(10).any(|lines| lines.iter().all(|line| line == &lines[0]));
        assert!(!runs_on, "{number}: the same line again and again\n{}", shown.lines.join("\n"));
    }
    // Whatever they are, `check` takes them for a program.
    let (lines, accepted) = check("file", bytes);
    assert!(lines.len() <= 40, "{number}\n{}", lines.join("\n"));
    let verdict = library::entries::load(bytes, &mut vec![0; RECORD_BYTES]);
    assert_eq!(accepted, verdict.refusal == 0);
    let found = program_reason(bytes).map_or((0, 0), |reason| (reason.refusal, reason.place as u32));
    assert_eq!(found, (verdict.refusal, verdict.place), "{number}: the reason is another\n{}", lines.join("\n"));
    match sort {
        Sort::Record => {
            // Of a sound record, an empty reply is refused for its header.
            let verdict = library::entries::reply(&mut bytes.to_vec(), &mut vec![0; library::WORK_BYTES], &[]);
            assert_eq!(unsound(bytes).is_some(), verdict.refusal != 11, "{number}: the reason is another");
        }
        Sort::Reply => {
            let mut record = lender.expect("a reply has a record").to_vec();
            let before = record.clone();
            let verdict = library::entries::reply(&mut record, &mut vec![0; library::WORK_BYTES], bytes);
            let found = reply_reason(&before, bytes).map_or((0, 0), |reason| (reason.refusal, reason.place as u32));
            if verdict.refusal != 16 {
                assert_eq!(found, (verdict.refusal, verdict.place), "{number}: the reason is another");
            }
        }
        Sort::Program | Sort::Call => {}
    }
}

/// The types and rows of some bytes that can be read at all: those with a form or a kind.
fn readable(bytes: &[u8], sort: Sort) -> usize {
    let count = |from: usize, most: usize, each: usize, last: u8| {
        let stretch = bytes.get(from.min(bytes.len())..).unwrap_or(&[]);
        stretch.chunks_exact(each).take(most).filter(|row| (1..=last).contains(&row[0])).count()
    };
    let number = |at: usize| if bytes.len() >= at + 2 { usize::from(u16_at(bytes, at)) } else { 0 };
    let (types, rows) = (number(6), number(8));
    let program = |types: usize, rows: usize| {
        count(10, types, TYPE_BYTES, 7) + count(10 + types * TYPE_BYTES, rows, ROW_BYTES, 19)
    };
    match sort {
        // Where the counts do not fit the length, either of them may be the good one.
        Sort::Program => {
            let body = bytes.len().saturating_sub(10);
            let by_types = program(types, body.saturating_sub(types * TYPE_BYTES) / ROW_BYTES);
            let by_rows = program(body.saturating_sub(rows * ROW_BYTES) / TYPE_BYTES, rows);
            let fits = 10 + types * TYPE_BYTES + rows * ROW_BYTES == bytes.len();
            if fits {
                program(types, rows)
            } else {
                by_types.max(by_rows).max(program(types, rows))
            }
        }
        Sort::Record => {
            let in_place =
                |from: usize, to: usize| bytes.get(from.min(bytes.len())..to.min(bytes.len())).unwrap_or(&[]);
            let of = |stretch: &[u8], most: usize, each: usize, last: u8| {
                stretch.chunks_exact(each).take(most).filter(|row| (1..=last).contains(&row[0])).count()
            };
            of(in_place(RECORD_TYPES, RECORD_OPEN), types, TYPE_BYTES, 7)
                + of(in_place(RECORD_ROWS, RECORD_ROWS + MAX_ROWS * ROW_BYTES), rows, ROW_BYTES, 19)
        }
        Sort::Reply => count(8, number(4), ROW_BYTES, 19),
        Sort::Call => count(12, number(8), ROW_BYTES, 19),
    }
}
