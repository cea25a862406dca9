//! Cases for the comparisons at scale, each made from a seed and its number alone.

use super::attempt::Attempt;
use super::block::{
    binding, degenerate, halves, large_prices, limits, out_of_reach, realistic, ties, tiny,
};
use super::damage;
use super::slips::{equal_rates, over_slacks, stopped_at_once};
use crate::answer;
use crate::block::{self, Block, Field, write};
use crate::rng::Rng;
use crate::service;

/// A block's bytes, with a plan and prices for the check.
pub fn check_case(seed: u64, number: u64) -> (Vec<u8>, Attempt) {
    let mut rng = Rng::of_case(seed, number);
    let block = good(&mut rng);
    let bytes = bytes(&mut rng, &block);
    // Damaged bytes may still be a block, but another one.
    let block = block::read(&bytes).unwrap_or(block);
    let attempt = attempt(&mut rng, &block);
    (bytes, attempt)
}

/// A block's bytes, with the length of a slice for the answer.
#[derive(Debug)]
pub struct PlaceCase {
    pub family: &'static str,
    pub block: Vec<u8>,
    pub slice: usize,
}

/// A family, how many of a hundred cases are of it, and its generator.
type Family = (&'static str, usize, fn(&mut Rng) -> Vec<u8>);

const PLACES: [Family; 13] = [
    ("tiny", 14, |rng| write(&tiny(rng))),
    ("2 to 5 words", 16, |rng| {
        let words = rng.int(2, 5) as usize;
        write(&loose(realistic(rng, words)))
    }),
    ("6 to 32 words", 10, |rng| {
        let words = rng.int(6, 32) as usize;
        write(&loose(realistic(rng, words)))
    }),
    ("2 to 5 words, binding cap", 12, |rng| {
        let words = rng.int(2, 5) as usize;
        write(&binding(rng, words))
    }),
    ("6 to 32 words, binding cap", 6, |rng| {
        let words = rng.int(6, 32) as usize;
        write(&binding(rng, words))
    }),
    ("cap out of reach", 3, |rng| {
        let words = few(rng);
        write(&out_of_reach(rng, words))
    }),
    ("degenerate", 12, |rng| {
        let words = few(rng);
        write(&degenerate(rng, words))
    }),
    ("ties", 6, |rng| {
        let words = few(rng);
        write(&ties(rng, words))
    }),
    ("slips", 3, |rng| {
        let slip: fn(&mut Rng) -> Block = rng.pick(&[over_slacks, stopped_at_once, equal_rates]);
        write(&slip(rng))
    }),
    ("halves and large prices", 4, |rng| {
        let family: fn(&mut Rng) -> Block = rng.pick(&[halves, large_prices]);
        write(&family(rng))
    }),
    ("limits", 2, |rng| write(&limits(rng))),
    ("damaged", 8, |rng| {
        let block = good(rng);
        match rng.below(100) {
            0 => longest(rng, &block),
            _ => damage::random(rng, &block),
        }
    }),
    ("arbitrary", 4, damage::arbitrary),
];

/// A case of any family for the service.
pub fn place_case(seed: u64, number: u64) -> PlaceCase {
    let mut rng = Rng::of_case(seed, number);
    let (family, _, make) = PLACES
        .iter()
        .flat_map(|family| std::iter::repeat_n(family, family.1))
        .nth(rng.below(100))
        .expect("shares of a hundred");
    let block = make(&mut rng);
    let slice = slice(&mut rng, &block);
    PlaceCase {
        family,
        block,
        slice,
    }
}

/// The length of a slice for the answer to these bytes: mostly the answer's own.
fn slice(rng: &mut Rng, bytes: &[u8]) -> usize {
    let Ok(block) = block::read(bytes) else {
        return rng.below(400);
    };
    let length = answer::length(&block);
    match rng.below(20) {
        0 => rng.below(length),
        1 => length - 1,
        2..=5 => length + rng.below(40),
        _ => length,
    }
}

/// One to eight words, and now and then up to 32.
fn few(rng: &mut Rng) -> usize {
    let most = if rng.chance(10) { 32 } else { 8 };
    rng.int(1, most) as usize
}

/// The block without a cap to speak of.
fn loose(block: Block) -> Block {
    Block {
        cap: block::FARTHEST,
        ..block
    }
}

/// A good block of any family.
fn good(rng: &mut Rng) -> Block {
    let most = if rng.chance(10) { 32 } else { 5 };
    let words = rng.int(1, most) as usize;
    match rng.below(100) {
        0..=39 => tiny(rng),
        40..=69 => realistic(rng, words),
        70..=89 => degenerate(rng, words),
        90..=92 => halves(rng),
        93..=95 => large_prices(rng),
        96 => equal_rates(rng),
        97 => stopped_at_once(rng),
        _ => limits(rng),
    }
}

/// The block's file, a file damaged from it, or arbitrary bytes.
fn bytes(rng: &mut Rng, block: &Block) -> Vec<u8> {
    match rng.below(1_000) {
        0..=449 => write(block),
        450..=849 => damage::random(rng, block),
        850..=998 => damage::arbitrary(rng),
        _ => longest(rng, block),
    }
}

/// A file with the longest body that there can be, whole or cut, after the words.
fn longest(rng: &mut Rng, block: &Block) -> Vec<u8> {
    let mut fields = block::fields(block);
    fields.truncate(block.words.len());
    let mut bytes = block::joined(&fields);
    let tag = rng.int(0, 6) as u8;
    Field::new(tag, vec![1; usize::from(u16::MAX)]).append_to(&mut bytes);
    if rng.chance(50) {
        bytes.truncate(rng.below(bytes.len()));
    }
    bytes
}

/// A plan and prices: anywhere, near the keys or, for some blocks, near the service's answer.
fn attempt(rng: &mut Rng, block: &Block) -> Attempt {
    let base = match rng.below(40) {
        0 => answered(block),
        1..=19 => Attempt::keys(block),
        _ => Attempt::anywhere(rng, block.words.len(), block.prices()),
    };
    match rng.below(10) {
        0..=2 => base,
        3..=7 => base.changed(rng, block),
        _ => base.spoiled(rng),
    }
}

/// The service's plan and prices without a cap, or the keys where it has none.
fn answered(block: &Block) -> Attempt {
    match service::answer(&loose(block.clone())) {
        Ok(answer) => Attempt {
            times: answer.times,
            prices: answer.prices,
        },
        Err(_) => Attempt::keys(block),
    }
}

#[cfg(test)]
mod tests {
    use super::super::lists::Counts;
    use super::*;

    #[test]
    fn shares_of_a_hundred() {
        assert_eq!(PLACES.iter().map(|family| family.1).sum::<usize>(), 100);
    }

    /// Each family gives what it is there for, and a short slice is in each of good blocks.
    #[test]
    fn families_and_outcomes() {
        let mut counts = Counts::default();
        let mut capped = 0;
        for number in 0..2_000 {
            let case = place_case(1, number);
            let mut slice = vec![0; case.slice];
            let outcome = service::place(&case.block, &mut slice);
            counts.add(case.family, outcome.err().unwrap_or(0));
            if case.family.ends_with("binding cap")
                && let Ok(length) = outcome
            {
                let price = answer::read(&slice[..length]).unwrap().prices.pop();
                capped += usize::from(price > Some(0));
            }
        }
        for (family, _, _) in &PLACES[..11] {
            assert!(counts.of(family, 8) > 0, "{family}");
            assert!(
                counts.of(family, 0) > 0 || *family == "cap out of reach",
                "{family}"
            );
        }
        assert_eq!(counts.of("cap out of reach", 0), 0);
        assert!(capped > 150, "{capped}");
        let damaged = |number| counts.of("damaged", number) > 0;
        assert!((1..=7).all(damaged), "{}", counts.table());
    }
}
