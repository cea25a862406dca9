//! Document 01's exact numbers: the known blocks P1 to P4, and the bound on the cost.

mod common;

use common::plans;
use reference::block::{Anchor, Block, Pair, Span, write};
use reference::cases::attempt::Attempt;
use reference::cases::block::tiny;
use reference::cases::known::{anchored, fixed, listed};
use reference::check::check;
use reference::exact::*;
use reference::rng::Rng;

fn gap_of(block: &Block, times: &[i64], prices: &[i64]) -> i128 {
    let handed: Vec<i32> = times.iter().map(|t| *t as i32).collect();
    let gap = gap(block, times, prices);
    assert_eq!(check(&write(block), &handed, prices), Ok(gap as i64));
    gap
}

#[test]
fn p1_p2_known_block() {
    let block = listed();
    assert_eq!(cost(&block, &[50]), 400);
    assert_eq!(moves(&block, &[50]), 10);
    assert_eq!(gap_of(&block, &[50], &[20]), 0);
    assert_eq!(gap_of(&block, &[50], &[0]), 2_000);
}

#[test]
fn p3_negative_gap() {
    assert_eq!(gap_of(&anchored(), &[50], &[20, 0]), -200);
}

#[test]
fn p4_fixed_word() {
    let block = fixed(5);
    assert!(keeps(&block, &[5]));
    assert_eq!(gap_of(&block, &[5], &[0, 0]), 0);
}

/// A span's price takes the larger of both ends, and misses count on both sides.
#[test]
fn span_by_hand() {
    let list = vec![Pair {
        word: 0,
        coefficient: -2,
    }];
    let span = Span {
        lower: -60,
        upper: -20,
        list,
    };
    assert_eq!(span_miss(&span, &[31]), 2);
    assert_eq!(span_miss(&span, &[30]), 0);
    assert_eq!(span_miss(&span, &[10]), 0);
    assert_eq!(span_miss(&span, &[9]), 2);
    let mut block = listed();
    block.spans = vec![span];
    // g = 50 − 70 = −20, h = g − 2 × price, the cap price 0. Price 3: h = −26, the least −2600;
    // −1000 + 2600 + max(−180, −60) = 1540. Price −3: h = −14, −1000 + 1400 + max(180, 60) = 580.
    assert_eq!(gap_of(&block, &[50], &[3, 0]), 2 * 1_540);
    assert_eq!(gap_of(&block, &[50], &[-3, 0]), 2 * 580);
}

/// The bounds on a written plan, at and just past each.
#[test]
fn bounds_on_a_written_plan() {
    let mut block = listed();
    let pair = |coefficient| Pair {
        word: 0,
        coefficient,
    };
    assert!(within_bounds(&block, &[50]) && !within_bounds(&block, &[51]));
    // Two words: moves may pass the cap by one.
    block.words.push(block.words[0]);
    assert!(within_bounds(&block, &[50, 41]) && !within_bounds(&block, &[50, 42]));
    assert!(!within_bounds(&block, &[101, 40]) && !within_bounds(&block, &[-1, 40]));
    block.cap = 1_000;
    block.anchors = vec![Anchor {
        value: 150,
        list: vec![pair(3)],
    }];
    // A miss of 3 is more than half of 3.
    assert!(within_bounds(&block, &[50, 40]) && !within_bounds(&block, &[51, 40]));
    block.anchors[0].value = 151;
    assert!(within_bounds(&block, &[50, 40]) && !within_bounds(&block, &[51, 40]));
    block.anchors.clear();
    block.spans = vec![Span {
        lower: 149,
        upper: 152,
        list: vec![pair(3)],
    }];
    assert!(within_bounds(&block, &[50, 40]) && within_bounds(&block, &[51, 40]));
    assert!(!within_bounds(&block, &[49, 40]) && !within_bounds(&block, &[52, 40]));
}

/// 'A plan's cost is at most the gap above that of any plan keeping the block', for every tiny
/// block's every whole-sample plan, and any plan and prices handed in.
#[test]
fn cost_bound_by_trying_every_plan() {
    let mut rng = Rng::new(3);
    let (mut compared, mut tight) = (0, 0);
    for _ in 0..4_000 {
        let block = tiny(&mut rng);
        let kept: Vec<Vec<i64>> = plans(&block).filter(|p| keeps(&block, p)).collect();
        let base = Attempt::keys(&block);
        for _ in 0..8 {
            let attempt = base.changed(&mut rng, &block);
            let times: Vec<i64> = attempt.times.iter().map(|t| (*t).into()).collect();
            let least = cost(&block, &times) - gap_of(&block, &times, &attempt.prices);
            for plan in &kept {
                let cost = cost(&block, plan);
                assert!(least <= cost, "{block:?} {attempt:?} {plan:?}");
                tight += u32::from(least == cost);
                compared += 1;
            }
        }
    }
    assert!(compared > 100_000, "{compared}");
    assert!(tight > 100, "{tight}");
}
