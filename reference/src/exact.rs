//! The exact numbers of document 01: a list's sum, a plan's cost and moves, misses, what a plan
//! keeps, the bounds on a written plan, and the gap. All in signed 128 bits, where none of them
//! can overflow: the largest, the gap, stays below 2⁶³.
//!
//! Each function takes a block as [`crate::block::read`] gives it, with a time for each word and,
//! in the gap, a price for each anchor, for each span and for the cap, in this order.

use crate::block::{Anchor, Block, Pair, Span};
use crate::refusal::OVERRUN;

/// 'A list's sum is coefficients times times.'
pub fn list_sum(list: &[Pair], times: &[i64]) -> i128 {
    list.iter()
        .map(|pair| i128::from(pair.coefficient) * i128::from(times[usize::from(pair.word)]))
        .sum()
}

/// 'A plan's cost: each weight × (sum − target)², plus 2 × slope × |time − key|.'
pub fn cost(block: &Block, times: &[i64]) -> i128 {
    let squares: i128 = block
        .tempos
        .iter()
        .map(|tempo| {
            let off = list_sum(&tempo.list, times) - i128::from(tempo.target);
            i128::from(tempo.weight) * off * off
        })
        .sum();
    let lines: i128 = (0..times.len())
        .map(|i| 2 * i128::from(block.words[i].slope) * word_move(block, times, i))
        .sum();
    squares + lines
}

/// 'A word's move is |time − key|.'
fn word_move(block: &Block, times: &[i64], i: usize) -> i128 {
    (i128::from(times[i]) - i128::from(block.words[i].key)).abs()
}

/// All moves added up.
pub fn moves(block: &Block, times: &[i64]) -> i128 {
    (0..times.len()).map(|i| word_move(block, times, i)).sum()
}

/// 'An anchor's miss is |sum − value|.'
pub fn anchor_miss(anchor: &Anchor, times: &[i64]) -> i128 {
    (list_sum(&anchor.list, times) - i128::from(anchor.value)).abs()
}

/// 'A span's is how far the sum lies outside lower to upper, 0 within.'
pub fn span_miss(span: &Span, times: &[i64]) -> i128 {
    let sum = list_sum(&span.list, times);
    let below = i128::from(span.lower) - sum;
    let above = sum - i128::from(span.upper);
    below.max(above).max(0)
}

/// 'A window is kept where the time is from lower to upper.'
pub fn keeps_windows(block: &Block, times: &[i64]) -> bool {
    times.iter().zip(&block.words).all(|(time, word)| {
        let (lower, upper) = (i64::from(word.lower), i64::from(word.upper));
        lower <= *time && *time <= upper
    })
}

/// Whether a plan keeps every window, anchor and span, and the cap.
pub fn keeps(block: &Block, times: &[i64]) -> bool {
    keeps_windows(block, times)
        && block.anchors.iter().all(|a| anchor_miss(a, times) == 0)
        && block.spans.iter().all(|s| span_miss(s, times) == 0)
        && moves(block, times) <= i128::from(block.cap)
}

/// 'The bounds on a written plan: every window kept; 2 × (moves − cap) at most the number of
/// words; 2 × each miss at most the sum of its coefficients' sizes.'
pub fn within_bounds(block: &Block, times: &[i64]) -> bool {
    let over = moves(block, times) - i128::from(block.cap);
    keeps_windows(block, times)
        && 2 * over <= times.len() as i128
        && block
            .anchors
            .iter()
            .all(|a| 2 * anchor_miss(a, times) <= sizes(&a.list))
        && block
            .spans
            .iter()
            .all(|s| 2 * span_miss(s, times) <= sizes(&s.list))
}

/// The sum of a list's coefficients' sizes.
fn sizes(list: &[Pair]) -> i128 {
    list.iter()
        .map(|pair| i128::from(pair.coefficient).abs())
        .sum()
}

/// Document 01, 'The gap'.
pub fn gap(block: &Block, times: &[i64], prices: &[i64]) -> i128 {
    let (anchor_prices, rest) = prices.split_at(block.anchors.len());
    let (span_prices, cap_price) = rest.split_at(block.spans.len());
    let cap_price = i128::from(cap_price[0]);

    let (g, h) = slopes(block, times, anchor_prices, span_prices);
    let words: i128 = (0..times.len())
        .map(|i| {
            let word = &block.words[i];
            let (time, slope) = (i128::from(times[i]), i128::from(word.slope));
            let own = g[i] * time + slope * word_move(block, times, i);
            let (lower, upper) = (i128::from(word.lower), i128::from(word.upper));
            own - least(
                (lower, upper, i128::from(word.key)),
                h[i],
                slope + cap_price,
            )
        })
        .sum();
    let anchors: i128 = block
        .anchors
        .iter()
        .zip(anchor_prices)
        .map(|(anchor, price)| i128::from(*price) * i128::from(anchor.value))
        .sum();
    let spans: i128 = block
        .spans
        .iter()
        .zip(span_prices)
        .map(|(span, price)| {
            let price = i128::from(*price);
            (price * i128::from(span.lower)).max(price * i128::from(span.upper))
        })
        .sum();
    2 * words + 2 * anchors + 2 * spans + 2 * cap_price * i128::from(block.cap)
}

/// For each word g, 'half the slope of the square part (weight × (sum − target) × coefficient,
/// added up)', and h, 'g plus each anchor or span price × coefficient'.
fn slopes(
    block: &Block,
    times: &[i64],
    anchor_prices: &[i64],
    span_prices: &[i64],
) -> (Vec<i128>, Vec<i128>) {
    let mut g = vec![0; times.len()];
    for tempo in &block.tempos {
        let off = list_sum(&tempo.list, times) - i128::from(tempo.target);
        add_times(&mut g, i128::from(tempo.weight) * off, &tempo.list);
    }
    let mut h = g.clone();
    for (anchor, price) in block.anchors.iter().zip(anchor_prices) {
        add_times(&mut h, i128::from(*price), &anchor.list);
    }
    for (span, price) in block.spans.iter().zip(span_prices) {
        add_times(&mut h, i128::from(*price), &span.list);
    }
    (g, h)
}

/// Adds `factor` × coefficient to the entry of each word in the list.
fn add_times(sums: &mut [i128], factor: i128, list: &[Pair]) {
    for pair in list {
        sums[usize::from(pair.word)] += factor * i128::from(pair.coefficient);
    }
}

/// 'The least, over lower, upper and a key inside, of h × t + (slope + cap price) × |t − key|.'
fn least((lower, upper, key): (i128, i128, i128), h: i128, raised: i128) -> i128 {
    let line = |t: i128| h * t + raised * (t - key).abs();
    let ends = line(lower).min(line(upper));
    if lower <= key && key <= upper {
        ends.min(line(key))
    } else {
        ends
    }
}

/// The gap in signed 64 bits, or 15.
pub fn gap_in_64_bits(block: &Block, times: &[i64], prices: &[i64]) -> Result<i64, u32> {
    i64::try_from(gap(block, times, prices)).map_err(|_| OVERRUN)
}
