//! The service and `places`: the known blocks, and demand 3 by trying every plan.

mod common;

use common::plans;
use reference::answer;
use reference::block::write;
use reference::cases::attempt::Attempt;
use reference::cases::block::tiny;
use reference::cases::known::{fixed, listed, pinned};
use reference::exact::{cost, gap, keeps, within_bounds};
use reference::rng::Rng;
use reference::service::{self, place};
use std::io::Write;
use std::process::{Command, Stdio};

/// What `places` prints for these bytes.
fn places(bytes: &[u8]) -> String {
    let mut program = Command::new(env!("CARGO_BIN_EXE_places"))
        .stdin(Stdio::piped())
        .stdout(Stdio::piped())
        .spawn()
        .unwrap();
    program.stdin.take().unwrap().write_all(bytes).unwrap();
    let output = program.wait_with_output().unwrap();
    assert!(output.status.success());
    String::from_utf8(output.stdout).unwrap()
}

#[test]
fn listing_of_the_known_block() {
    let listing = "word key audio\n0 40 50\nmoves 10 cap 10\ngap 0\nrounds 2\n";
    assert_eq!(places(&write(&listed())), listing);
    assert_eq!(places(&[]), "refused 3\n");
    assert_eq!(places(&[9, 9, 9]), "refused 2\n");
}

/// 'Window 50..50, key 40, cap 9 gives 14, cap 10 the plan 50; window 5..5, key 5, with anchor 6
/// gives 12, with 5 rounds 1.'
#[test]
fn run_cases() {
    assert_eq!(service::answer(&pinned(9)), Err(14));
    assert_eq!(service::answer(&pinned(10)).unwrap().times, [50]);
    assert_eq!(service::answer(&fixed(6)), Err(12));
    let answer = service::answer(&fixed(5)).unwrap();
    assert_eq!((answer.times, answer.passes), (vec![5], 1));
    assert_eq!(places(&write(&fixed(6))), "refused 12\n");
}

/// P1 as the service writes it, and 8 with one byte less; a refusal writes nothing.
#[test]
fn known_block_written() {
    let block = listed();
    let bytes = write(&block);
    let length = answer::length(&block);
    let mut slice = vec![0xA5; length + 3];
    assert_eq!(place(&bytes, &mut slice), Ok(length));
    let written = answer::read(&slice[..length]).unwrap();
    assert_eq!(written.times, [50]);
    assert_eq!(written.prices, [20]);
    assert_eq!((written.gap, written.passes), (0, 2));
    assert_eq!(slice[length..], [0xA5; 3]);

    for (bytes, length, refusal) in [
        (&bytes[..], length - 1, 8),
        (&bytes, 0, 8),
        (&bytes[..5], 0, 1),
        // The slice is judged before the engine is asked.
        (&write(&pinned(9)), 0, 8),
        (&write(&pinned(9)), 100, 14),
        (&write(&fixed(6)), 100, 12),
    ] {
        let mut slice = vec![0xA5; length];
        assert_eq!(place(bytes, &mut slice), Err(refusal));
        assert!(slice.iter().all(|byte| *byte == 0xA5));
    }
}

/// Demand 3 for tiny blocks, against every whole-sample plan that keeps the block: the written
/// plan is within its bounds, and its cost, and that of plans and prices near it, is at most the
/// gap above any kept plan's.
#[test]
fn demand_3_by_trying_every_plan() {
    let mut rng = Rng::new(7);
    let (mut solved, mut compared, mut tight) = (0, 0, 0);
    for _ in 0..1_500 {
        let block = tiny(&mut rng);
        let Ok(answer) = service::answer(&block) else {
            continue;
        };
        solved += 1;
        let kept: Vec<i128> = plans(&block)
            .filter(|plan| keeps(&block, plan))
            .map(|plan| cost(&block, &plan))
            .collect();
        let written = Attempt {
            times: answer.times,
            prices: answer.prices,
        };
        let mut attempts = vec![written.clone()];
        attempts.extend((0..3).map(|_| written.changed(&mut rng, &block)));
        for (number, attempt) in attempts.iter().enumerate() {
            let times: Vec<i64> = attempt.times.iter().map(|t| (*t).into()).collect();
            let gap = gap(&block, &times, &attempt.prices);
            if number == 0 {
                assert!(within_bounds(&block, &times));
                assert_eq!(gap, answer.gap.into());
            }
            for cost_kept in &kept {
                assert!(cost(&block, &times) - gap <= *cost_kept, "{block:?}");
                tight += u32::from(cost(&block, &times) - gap == *cost_kept);
                compared += 1;
            }
        }
    }
    assert!(
        solved > 700 && compared > 20_000 && tight > 100,
        "{solved} {compared} {tight}"
    );
}
