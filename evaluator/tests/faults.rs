//! Every fault, put alone into a copy of the evaluator, is found by comparing sessions; the true copy differs nowhere.

use evaluator::compare::compare_session;
use evaluator::deep::on_deep_stack;
use evaluator::fault::Fault;
use evaluator::faults::look_for;
use evaluator::machine::Evaluator;

/// Most faults take under a hundred sessions; the rarest took 1,588 with this seed and 4,068 with another.
const MOST_SESSIONS: u64 = 10_000;

#[test]
fn every_fault_is_found() {
    assert!(Fault::ALL.len() >= 30);
    let missed: Vec<Fault> = on_deep_stack(|| {
        let findings = Fault::ALL.iter().map(|&fault| look_for(fault, 1, MOST_SESSIONS));
        findings.filter(|finding| finding.found.is_none()).map(|finding| finding.fault).collect()
    });
    assert_eq!(missed, []);
}

#[test]
fn the_true_evaluator_does_not_differ_from_itself() {
    on_deep_stack(|| {
        for number in 0..500 {
            let same = compare_session(7, number, [&mut Evaluator::TRUE.clone(), &mut Evaluator::TRUE.clone()]);
            assert!(same.is_ok(), "session {number}");
        }
    });
}

#[test]
fn a_difference_tells_how_to_meet_it_again() {
    let found = (0..MOST_SESSIONS).find_map(|number| {
        let mut bent = Evaluator::bent(Fault::HeldPassedOver);
        let difference = compare_session(3, number, [&mut Evaluator::TRUE.clone(), &mut bent]).err()?;
        Some((number, difference.to_string()))
    });
    let (number, text) = found.expect("the fault is found");
    assert!(text.contains(&format!("compare-sessions --seed 3 --from {number} --count 1")));
    assert!(text.contains("DIFFERENCE between evaluator and HeldPassedOver"));
}
