//! 'The check of anyone's plan and prices: block, 9, times (0 to 262,144) and prices 5, 15.'

use crate::block::{self, LATEST};
use crate::exact;
use crate::refusal::{OUT_OF_RANGE, WRONG_SHAPE};

/// The largest price.
pub const DEAREST: i64 = 4_294_967_296;

/// The gap of a plan and its prices (anchors, spans, cap) in a block, or a refusal. The plan
/// 'need keep no window, anchor, span or cap'.
pub fn check(block: &[u8], times: &[i32], prices: &[i64]) -> Result<i64, u32> {
    let block = block::read(block)?;
    if times.len() != block.words.len() || prices.len() != block.prices() {
        return Err(WRONG_SHAPE);
    }
    if !times.iter().all(|time| (0..=LATEST).contains(time)) {
        return Err(OUT_OF_RANGE);
    }
    let (cap, others) = prices.split_last().ok_or(WRONG_SHAPE)?;
    let in_range = others.iter().all(|p| (-DEAREST..=DEAREST).contains(p));
    if !in_range || !(0..=DEAREST).contains(cap) {
        return Err(OUT_OF_RANGE);
    }
    let times: Vec<i64> = times.iter().copied().map(i64::from).collect();
    exact::gap_in_64_bits(&block, &times, prices)
}
