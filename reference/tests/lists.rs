//! The fixed lists, read back and run again.

use reference::cases::algebra;
use reference::cases::code::Decoder;
use reference::cases::engine::{Call, Case};
use reference::cases::factor::{Record, agree};
use reference::cases::lists::path;
use std::collections::BTreeMap;

fn list(program: &str) -> Vec<u8> {
    std::fs::read(path(program)).expect("the list")
}

/// How often each outcome occurs.
type Counts = BTreeMap<u32, usize>;

/// The counts of each call in a list, every record's outcome being the reference's.
fn replay(program: &str) -> BTreeMap<Call, Counts> {
    let bytes = list(program);
    let mut records = Decoder::new(&bytes);
    let mut counts: BTreeMap<_, Counts> = BTreeMap::new();
    while !records.at_end() {
        let (call, case, outcome) = Case::decode(records.record());
        assert!(case.run(call).agrees(&outcome), "{case:?}");
        let of_call = counts.entry(call).or_default();
        *of_call.entry(outcome.number).or_default() += 1;
    }
    counts
}

fn assert_outcomes(counts: &Counts, least: usize, outcomes: &[u32]) {
    assert!(counts.values().sum::<usize>() >= least);
    assert_eq!(counts.keys().copied().collect::<Vec<_>>(), outcomes);
}

#[test]
fn kkt() {
    let counts = replay("replay_kkt");
    assert!(counts.keys().eq(&[Call::Kkt]));
    assert_outcomes(&counts[&Call::Kkt], 1600, &[0, 9, 11, 12, 100]);
}

/// The capped call can't give 13: a raise at which the objective has no minimum is one that turns over too much.
#[test]
fn bounded_piecewise_and_capped() {
    let counts = replay("replay_engine");
    let calls = [Call::Bounded, Call::Piecewise, Call::Capped];
    assert!(counts.keys().eq(&calls));
    let uncapped = [0, 9, 10, 11, 12, 13, 14];
    assert_outcomes(&counts[&Call::Bounded], 900, &uncapped);
    assert_outcomes(&counts[&Call::Piecewise], 900, &uncapped);
    assert_outcomes(&counts[&Call::Capped], 900, &[0, 9, 10, 11, 12, 14]);
}

#[test]
fn kernels() {
    let bytes = list("replay_algebra");
    let mut records = Decoder::new(&bytes);
    let mut count = 0;
    while !records.at_end() {
        let (case, outcome) = algebra::Case::decode(records.record());
        assert!(algebra::agree(&case.run(), &outcome), "{case:?}");
        count += 1;
    }
    assert!(count >= 2200);
}

#[test]
fn factors() {
    let bytes = list("replay_factor");
    let mut records = Decoder::new(&bytes);
    let (mut sequences, mut systems) = (0, 0);
    while !records.at_end() {
        match Record::decode(records.record()) {
            Record::Sequence(sequence, outcomes) => {
                assert!((5..=40).contains(&outcomes.len()));
                let updates = sequence.run();
                assert_eq!(updates.len(), outcomes.len());
                let mut both = updates.iter().zip(&outcomes);
                assert!(both.all(|((a, _), b)| a.agrees(b)), "{sequence:?}");
                sequences += 1;
            }
            Record::System(system, solution) => {
                assert!(agree(&system.run(), &solution), "{system:?}");
                systems += 1;
            }
        }
    }
    assert!(sequences >= 300 && systems >= 500);
}

#[test]
fn lists_are_small() {
    let programs = ["algebra", "kkt", "engine", "factor"];
    let sizes = programs.map(|program| list(&format!("replay_{program}")).len());
    assert!(sizes.iter().sum::<usize>() < 3_000_000);
}
