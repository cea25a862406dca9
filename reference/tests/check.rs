//! The check's refusals and their order, and the answer file.

use reference::answer::{self, Answer};
use reference::block::write;
use reference::cases::attempt::Attempt;
use reference::cases::block::{limits, tiny};
use reference::cases::damage;
use reference::cases::known::anchored;
use reference::check::{DEAREST, check};
use reference::rng::Rng;

#[test]
fn refusals_in_order() {
    let block = write(&anchored());
    assert!(check(&block, &[50], &[0, 0]).is_ok());
    for (times, prices, refusal) in [
        (&[][..], &[0, 0][..], 9),
        (&[50, 50], &[0, 0], 9),
        (&[50], &[0], 9),
        (&[50], &[0, 0, 0], 9),
        (&[50], &[], 9),
        (&[-1, 50], &[0, 0], 9),
        (&[-1], &[0], 9),
        (&[50], &[DEAREST + 1], 9),
        (&[-1], &[0, 0], 5),
        (&[262_145], &[0, 0], 5),
        (&[i32::MIN], &[0, 0], 5),
        (&[50], &[DEAREST + 1, 0], 5),
        (&[50], &[-DEAREST - 1, 0], 5),
        (&[50], &[0, -1], 5),
        (&[50], &[0, DEAREST + 1], 5),
        (&[50], &[i64::MIN, i64::MAX], 5),
    ] {
        assert_eq!(
            check(&block, times, prices),
            Err(refusal),
            "{times:?} {prices:?}"
        );
    }
    for time in [0, 262_144] {
        for price in [-DEAREST, DEAREST] {
            assert!(check(&block, &[time], &[price, price.abs()]).is_ok());
        }
    }
}

/// A block that can't be read is refused before its plan is looked at.
#[test]
fn block_first() {
    let mut rng = Rng::new(4);
    for _ in 0..20_000 {
        let block = tiny(&mut rng);
        let bytes = damage::random(&mut rng, &block);
        let attempt = Attempt::keys(&block);
        let attempts = [attempt.clone(), attempt.spoiled(&mut rng)];
        if let Err(refusal) = reference::block::read(&bytes) {
            for attempt in attempts {
                let found = check(&bytes, &attempt.times, &attempt.prices);
                assert_eq!(found, Err(refusal));
            }
        }
    }
}

/// With every limit at its largest and prices anywhere in range, the gap stays in 64 bits.
#[test]
fn no_overrun() {
    let mut rng = Rng::new(5);
    for _ in 0..300 {
        let block = limits(&mut rng);
        let bytes = write(&block);
        for _ in 0..20 {
            let attempt = Attempt::anywhere(&mut rng, block.words.len(), block.prices());
            assert!(check(&bytes, &attempt.times, &attempt.prices).is_ok());
        }
    }
}

#[test]
fn answer_file_by_hand() {
    let answer = Answer {
        times: vec![50],
        prices: vec![-2, 20],
        gap: -200,
        passes: 258,
    };
    let file = [
        &[17, 4, 0, 50, 0, 0, 0][..],
        &[
            18, 16, 0, 254, 255, 255, 255, 255, 255, 255, 255, 20, 0, 0, 0, 0, 0, 0, 0,
        ],
        &[19, 8, 0, 56, 255, 255, 255, 255, 255, 255, 255],
        &[20, 2, 0, 2, 1],
    ]
    .concat();
    assert_eq!(answer::bytes(&answer), file);
    assert_eq!(answer::length(&anchored()), file.len());
    assert_eq!(answer::read(&file), Some(answer));
}

/// What is written is read back; bytes past it keep their values; a short slice is untouched.
#[test]
fn answer_round_trip() {
    let mut rng = Rng::new(6);
    for round in 0..500 {
        let block = if round % 50 == 0 {
            limits(&mut rng)
        } else {
            tiny(&mut rng)
        };
        let attempt = Attempt::anywhere(&mut rng, block.words.len(), block.prices());
        let answer = Answer {
            times: attempt.times,
            prices: attempt.prices,
            gap: rng.bits() as i64,
            passes: rng.bits() as u16,
        };
        let length = answer::length(&block);
        for spare in [0, 1, 7] {
            let mut slice = vec![0xA5; length + spare];
            assert_eq!(answer::write(&answer, &mut slice), Ok(length));
            assert_eq!(answer::read(&slice[..length]), Some(answer.clone()));
            assert!(slice[length..].iter().all(|byte| *byte == 0xA5));
        }
        let mut short = vec![0xA5; length - 1];
        assert_eq!(answer::write(&answer, &mut short), Err(8));
        assert!(short.iter().all(|byte| *byte == 0xA5));
    }
}
