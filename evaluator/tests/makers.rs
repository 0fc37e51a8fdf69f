//! The makers make what they promise: every answer and refusal, at many places, over every kind, the same for a seed.

use evaluator::compare::{fixed_loads, group_acts, small_if, tower_loads};
use evaluator::deep::on_deep_stack;
use evaluator::fault::Bend;
use evaluator::frequencies::{tally, ways_of_damage};
use evaluator::layout::{MAX_PROGRAM_ROWS, MAX_ROWS, RECORD_BYTES};
use evaluator::make::programs::{program, Wish};
use evaluator::make::records::sound;
use evaluator::make::sessions::Act;
use evaluator::random::Random;
use evaluator::record::Record;
use evaluator::words::ANSWERS;
use evaluator::{load, Verdict};

#[test]
fn made_programs_load_at_every_size() {
    let mut random = Random::new(5);
    let mut record = vec![0; RECORD_BYTES];
    for rows in (1..=MAX_PROGRAM_ROWS).chain([MAX_PROGRAM_ROWS; 20]) {
        let made = program(&mut random, Wish { rows, most: MAX_PROGRAM_ROWS, futures: false });
        assert_eq!(load(&made.file(), &mut record), Verdict::ACCEPTED, "about {rows} rows");
    }
}

#[test]
fn made_records_are_sound() {
    let mut random = Random::new(6);
    let mut most = 0;
    for number in 0..2_000 {
        let kept = Record::decode_sound(&sound(&mut random), Bend::NONE);
        most = most.max(kept.unwrap_or_else(|| panic!("record {number} is not sound")).rows.len());
    }
    assert!(most > MAX_ROWS - 4);
}

#[test]
fn every_answer_and_every_refusal_comes() {
    let tally = on_deep_stack(|| tally(3, 4_000, 400));
    let times = |entry: &'static str, words: &str| {
        let found = tally.came.iter().find(|((e, w), _)| *e == entry && w.trim_start().starts_with(words));
        found.map_or((0, 0), |(_, (count, places))| (*count, places.len()))
    };
    for (_, words) in ANSWERS {
        assert!(times("run", words).0 > 10, "{words}");
    }
    for refusal in 0..=9 {
        assert!(times("load", &format!("{refusal} ")).0 > 50, "load {refusal}");
    }
    for refusal in [6, 7, 8, 9] {
        assert!(times("load", &format!("{refusal} ")).1 > 30, "load {refusal}: places");
    }
    for refusal in [0, 1, 10, 11, 12, 13, 14, 15, 16] {
        assert!(times("reply", &format!("{refusal} ")).0 > 10, "reply {refusal}");
    }
    assert!(times("run refused", "1 ").0 > 10 && times("run refused", "10 ").0 > 10);
    assert!(tally.kinds.iter().enumerate().all(|(kind, &rows)| kind == 0 || kind == 9 || rows > 100));
}

#[test]
fn every_way_of_damage_makes_a_record_unsound() {
    for (words, done, unsound) in on_deep_stack(|| ways_of_damage(4, 20)) {
        assert!(done == 20 && unsound > 0, "{words}: {unsound} of {done}");
    }
}

#[test]
fn the_same_seed_makes_the_same_loads() {
    let files = |seed| -> Vec<Vec<u8>> {
        let acts = (0..20).flat_map(|group| group_acts(seed, group));
        acts.filter_map(|act| if let Act::Load(file) = act { Some(file) } else { None }).collect()
    };
    assert!(files(9) == files(9));
    assert!(files(9) != files(10));
}

#[test]
fn the_fixed_loads_hold_every_cut_and_every_changed_byte() {
    let loads = fixed_loads();
    let small = small_if();
    assert_eq!(small.len(), 114);
    let near = |file: &[u8]| file.len() == 114 && file.iter().zip(&small).filter(|(a, b)| a != b).count() == 1;
    assert!(loads.iter().filter(|load| near(&load.file)).count() >= 114 * 255);
    assert!((0..114).all(|length| loads.iter().any(|load| load.file == small[..length])));
    let mut record = vec![0; RECORD_BYTES];
    let accepted = |load: &&evaluator::compare::FixedLoad| load_of(&load.file, &mut record) == Verdict::ACCEPTED;
    assert!(loads.iter().filter(accepted).count() > 100);
    for tower in tower_loads() {
        let types = usize::from(tower.file[6]) + 256 * usize::from(tower.file[7]);
        let refusal = if types > 256 { 5 } else { 0 };
        assert_eq!(load(&tower.file, &mut vec![0; RECORD_BYTES]).refusal, refusal, "{}", tower.words);
    }
}

fn load_of(file: &[u8], record: &mut [u8]) -> Verdict {
    load(file, record)
}
