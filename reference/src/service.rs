//! The service: block bytes in, answer bytes out. 'The block; then 8; then the engine; then 14
//! exactly where an engine weight isn't finite, or the written times break one of the bounds;
//! then 15.'

use crate::answer::{self, Answer};
use crate::block::{self, Block, Pair};
use crate::cases::engine::Case;
use crate::check::DEAREST;
use crate::engine::{Capped, solve_turnover_capped};
use crate::exact;
use crate::refusal::{NOT_CONVERGED, SHORT_SLICE};

/// Writes the block's answer to the front of the slice and gives its length, or a refusal, which
/// leaves the slice as it was.
pub fn place(block: &[u8], slice: &mut [u8]) -> Result<usize, u32> {
    let block = block::read(block)?;
    if slice.len() < answer::length(&block) {
        return Err(SHORT_SLICE);
    }
    answer::write(&answer(&block)?, slice)
}

/// The answer to a block that was read, or a refusal from 11 on.
pub fn answer(block: &Block) -> Result<Answer, u32> {
    let Capped { solved, raise } = solve(block)?;
    let times = written_times(block, &solved.x)?;
    let prices = written_prices(&solved.multipliers, raise);
    let gap = exact::gap_in_64_bits(block, &times, &prices)?;
    Ok(Answer {
        // In their windows, so at most 262,144.
        times: times.iter().map(|time| *time as i32).collect(),
        prices,
        gap,
        // At most 100 + 20 × 48, the engine's own limit.
        passes: solved.passes as u16,
    })
}

/// Hands the block to the engine.
fn solve(block: &Block) -> Result<Capped, u32> {
    let case = engine_case(block);
    solve_turnover_capped(
        &case.problem(),
        &case.at,
        &case.slopes,
        &case.start,
        case.cap,
    )
}

/// What the engine gets: half the cost is ½ xᵀQx − cᵀx + Σ slope × |x − key| and a constant,
/// 'anchors are equality columns, spans rows', the cap bounds Σ |x − key|.
///
/// 'Q adds weight × coefficient products, c adds weight × target × coefficient'. Every product
/// and every partial sum is a whole number: in Q of at most 64 terms × 64 × 8 × 8 = 2¹⁸, in c of
/// at most 64 terms × 64 × 2²³ × 8 = 2³⁸. Below 2⁵³ these are exact in f64, and no sum from +0 is
/// −0, so the order of adding and multiplying can't show in a bit of Q or c.
pub fn engine_case(block: &Block) -> Case {
    let n = block.words.len();
    let mut q = vec![0.0; n * n];
    let mut c = vec![0.0; n];
    for tempo in &block.tempos {
        let (weight, target) = (f64::from(tempo.weight), f64::from(tempo.target));
        for pair in &tempo.list {
            let i = usize::from(pair.word);
            let coefficient = f64::from(pair.coefficient);
            c[i] += weight * target * coefficient;
            for other in &tempo.list {
                let j = usize::from(other.word);
                q[i + j * n] += weight * coefficient * f64::from(other.coefficient);
            }
        }
    }
    let each_word = |number: fn(&block::Word) -> i32| -> Vec<f64> {
        block.words.iter().map(|w| f64::from(number(w))).collect()
    };
    let each_span = |number: fn(&block::Span) -> i32| -> Vec<f64> {
        block.spans.iter().map(|s| f64::from(number(s))).collect()
    };
    Case {
        n,
        m: block.anchors.len(),
        r: block.spans.len(),
        q,
        c,
        e: columns(block.anchors.iter().map(|a| &a.list[..]), n),
        b: block.anchors.iter().map(|a| f64::from(a.value)).collect(),
        lower: each_word(|w| w.lower),
        upper: each_word(|w| w.upper),
        a: columns(block.spans.iter().map(|s| &s.list[..]), n),
        row_lower: each_span(|s| s.lower),
        row_upper: each_span(|s| s.upper),
        at: each_word(|w| w.key),
        slopes: each_word(|w| w.slope),
        start: each_word(|w| w.start),
        cap: f64::from(block.cap),
        ..Case::empty("blocks")
    }
}

/// A column of `n` coefficients for each list, 0 for a word that isn't in it.
fn columns<'a>(lists: impl Iterator<Item = &'a [Pair]>, n: usize) -> Vec<f64> {
    let mut columns = Vec::new();
    for list in lists {
        let mut column = vec![0.0; n];
        for pair in list {
            column[usize::from(pair.word)] = f64::from(pair.coefficient);
        }
        columns.extend(column);
    }
    columns
}

/// 'Each engine weight goes to the nearest whole sample, halves to even'; 14 where one isn't
/// finite or the times break a bound on a written plan.
fn written_times(block: &Block, weights: &[f64]) -> Result<Vec<i64>, u32> {
    if !weights.iter().all(|weight| weight.is_finite()) {
        return Err(NOT_CONVERGED);
    }
    // A weight past 64 bits becomes their end, which is outside every window too.
    let times: Vec<i64> = weights
        .iter()
        .map(|weight| weight.round_ties_even() as i64)
        .collect();
    if !exact::within_bounds(block, &times) {
        return Err(NOT_CONVERGED);
    }
    Ok(times)
}

/// 'Prices are the multipliers divided by their column scales, and the accepted raise of the
/// slopes'. The engine's multipliers come divided.
fn written_prices(multipliers: &[f64], raise: f64) -> Vec<i64> {
    let lists = multipliers.iter().map(|price| written_price(*price));
    lists.chain([written_price(raise).max(0)]).collect()
}

/// 'To the nearest whole, halves to even, held within ±4,294,967,296 (cap from 0); a non-finite
/// one becomes 0.'
fn written_price(price: f64) -> i64 {
    if !price.is_finite() {
        return 0;
    }
    (price.round_ties_even() as i64).clamp(-DEAREST, DEAREST)
}

#[cfg(test)]
mod tests {
    use super::*;

    #[test]
    fn prices_are_rounded_and_held() {
        for (price, written) in [
            (0.5, 0),
            (1.5, 2),
            (-0.5, 0),
            (-1.5, -2),
            (2.500_000_1, 3),
            (-0.0, 0),
            (4_294_967_296.4, DEAREST),
            (4_294_967_297.0, DEAREST),
            (-1e300, -DEAREST),
            (f64::NAN, 0),
            (f64::INFINITY, 0),
            (f64::NEG_INFINITY, 0),
        ] {
            assert_eq!(written_price(price), written, "{price}");
        }
        assert_eq!(written_prices(&[-3.0], -3.0), [-3, 0]);
    }

    #[test]
    fn times_are_rounded_and_tested() {
        let block = Block {
            words: vec![block::Word {
                lower: 2,
                upper: 6,
                key: 4,
                start: 4,
                slope: 0,
            }],
            cap: 2,
            ..Block::default()
        };
        for (weight, written) in [
            (2.5, Ok(vec![2])),
            (3.5, Ok(vec![4])),
            (6.5, Ok(vec![6])),
            (1.5, Ok(vec![2])),
            (1.4, Err(14)),
            (6.6, Err(14)),
            (1e300, Err(14)),
            (-1e300, Err(14)),
            (f64::NAN, Err(14)),
            (f64::INFINITY, Err(14)),
        ] {
            assert_eq!(written_times(&block, &[weight]), written, "{weight}");
        }
        // One word: moves may not pass the cap at all.
        let tight = Block { cap: 1, ..block };
        assert_eq!(written_times(&tight, &[5.0]), Ok(vec![5]));
        assert_eq!(written_times(&tight, &[6.0]), Err(14));
    }
}
