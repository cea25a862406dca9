//! Plans and prices for the check: near a given plan, anywhere in range, and wrong ones.

use crate::block::{Block, LATEST};
use crate::check::DEAREST;
use crate::rng::Rng;

/// A plan and prices that someone hands to the check.
#[derive(Debug, Clone, PartialEq, Eq)]
pub struct Attempt {
    pub times: Vec<i32>,
    pub prices: Vec<i64>,
}

impl Attempt {
    /// The keys held to their windows, and no prices.
    pub fn keys(block: &Block) -> Self {
        let held = block.words.iter().map(|w| w.key.clamp(w.lower, w.upper));
        Attempt {
            times: held.collect(),
            prices: vec![0; block.prices()],
        }
    }

    /// As many random numbers of each as asked, in range.
    pub fn anywhere(rng: &mut Rng, times: usize, prices: usize) -> Self {
        let mut attempt = Attempt {
            times: vec![0; times],
            prices: vec![0; prices],
        };
        attempt.move_anywhere(rng);
        attempt.price_anywhere(rng);
        attempt
    }

    /// This one with its times, its prices or both changed, all in range.
    pub fn changed(&self, rng: &mut Rng, block: &Block) -> Self {
        let mut attempt = self.clone();
        match rng.below(5) {
            0 => attempt.nudge_time(rng),
            1 => {
                for (time, word) in attempt.times.iter_mut().zip(&block.words) {
                    *time = rng.int(word.lower.into(), word.upper.into()) as i32;
                }
            }
            2 => attempt.move_anywhere(rng),
            _ => {}
        }
        match rng.below(5) {
            0 => attempt.nudge_price(rng),
            1 => attempt.price_anywhere(rng),
            2 => attempt.prices.fill(0),
            _ => {}
        }
        attempt
    }

    /// This one with a wrong count, a number out of range, or both.
    pub fn spoiled(&self, rng: &mut Rng) -> Self {
        let mut attempt = self.clone();
        match rng.below(3) {
            0 => attempt.spoil_count(rng),
            1 => attempt.spoil_number(rng),
            _ => {
                attempt.spoil_number(rng);
                attempt.spoil_count(rng);
            }
        }
        attempt
    }

    fn nudge_time(&mut self, rng: &mut Rng) {
        if !self.times.is_empty() {
            let at = rng.below(self.times.len());
            let by = rng.pick(&[-1, 1, -100, 100]);
            self.times[at] = (self.times[at] + by).clamp(0, LATEST);
        }
    }

    fn nudge_price(&mut self, rng: &mut Rng) {
        if !self.prices.is_empty() {
            let at = rng.below(self.prices.len());
            let by = rng.pick(&[-1, 1, -1_000, 1_000]);
            self.prices[at] = (self.prices[at] + by).clamp(-DEAREST, DEAREST);
            self.hold_cap();
        }
    }

    fn move_anywhere(&mut self, rng: &mut Rng) {
        let at_ends = rng.chance(25);
        for time in &mut self.times {
            *time = if at_ends {
                rng.pick(&[0, LATEST])
            } else {
                rng.int(0, LATEST.into()) as i32
            };
        }
    }

    fn price_anywhere(&mut self, rng: &mut Rng) {
        let size = rng.pick(&[10, 10_000, DEAREST]);
        let at_ends = rng.chance(25);
        for price in &mut self.prices {
            *price = if at_ends {
                rng.pick(&[-size, size])
            } else {
                rng.int(-size, size)
            };
        }
        self.hold_cap();
    }

    /// The cap's price is from 0.
    fn hold_cap(&mut self) {
        if let Some(cap) = self.prices.last_mut() {
            *cap = cap.abs();
        }
    }

    fn spoil_count(&mut self, rng: &mut Rng) {
        match rng.below(6) {
            0 => self.times.push(0),
            1 => self.prices.push(0),
            2 => self.times.clear(),
            3 => self.prices.clear(),
            4 => {
                self.times.pop();
            }
            _ => {
                self.prices.pop();
            }
        }
    }

    fn spoil_number(&mut self, rng: &mut Rng) {
        let (times, prices) = (self.times.len(), self.prices.len());
        if times > 0 && (prices == 0 || rng.chance(50)) {
            let at = rng.below(times);
            self.times[at] = rng.pick(&[-1, LATEST + 1, i32::MIN, i32::MAX]);
        } else if prices > 0 {
            let at = rng.below(prices);
            self.prices[at] = rng.pick(&[-DEAREST - 1, DEAREST + 1, i64::MIN, i64::MAX]);
            if rng.chance(30) {
                self.prices[prices - 1] = -1;
            }
        }
    }
}
