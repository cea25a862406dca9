//! Blocks made to tell the engine from one with a slip of document 01's list, 'Slips of this
//! trade'. Random blocks hardly ever do.

use crate::block::*;
use crate::rng::Rng;

/// For 'measuring the full step's 1e-12 tolerance over slacks as well as words': the best time of
/// the first word lies above its window by more than 1e-12 of the largest time, but by less than
/// 1e-12 of the span's sum of four times. So the full step is stopped there, and with the slip it
/// isn't, which takes a pass less.
pub fn over_slacks(rng: &mut Rng) -> Block {
    let word = Word {
        start: 240_000,
        ..free_word()
    };
    let mut block = Block {
        words: vec![word; 4],
        cap: FARTHEST,
        ..Block::default()
    };
    // Terms that every word's Q entry is about the same from, with targets for times near 250,000.
    let near = |rng: &mut Rng, sum: i32| sum * 250_000 + rng.int(-8_000, 8_000) as i32;
    for word in 0..4 {
        let target = near(rng, 8);
        block.tempos.push(tempo(HEAVIEST, target, &[(word, 8)]));
    }
    let target = near(rng, 10);
    block.tempos.push(tempo(64, target, &[(0, 7), (1, 3)]));
    block.tempos.push(tempo(1, 250_000, &[(1, 1)]));
    block.tempos.push(tempo(1, 0, &[(0, 1)]));
    block.spans.push(Span {
        lower: 0,
        upper: FARTHEST,
        list: list(&[(0, 1), (1, 1), (2, 1), (3, 1)]),
    });
    // The last term's target moves the first word's optimum in small steps, until it lies above a
    // whole number by about 5e-7.
    let last = block.tempos.len() - 1;
    let (at_0, denominator) = first_optimum(&block);
    block.tempos[last].target = 1;
    let step = first_optimum(&block).0 - at_0;
    let near_whole = |target: &i32| {
        let part = (at_0 + i64::from(*target) * step).rem_euclid(denominator);
        (300..800).contains(&(part * 1_000_000_000 / denominator))
    };
    let target = (0..FARTHEST)
        .find(near_whole)
        .expect("some part is so small");
    block.tempos[last].target = target;
    block.words[0].upper = (first_optimum(&block).0.div_euclid(denominator)) as i32;
    block
}

/// The first word's optimum, which only its terms and those of the second decide, as a fraction.
fn first_optimum(block: &Block) -> (i64, i64) {
    let (mut q, mut c) = ([[0i64; 2]; 2], [0i64; 2]);
    for tempo in &block.tempos {
        let a = [0, 1].map(|word| {
            let pair = tempo.list.iter().find(|pair| pair.word == word);
            pair.map_or(0, |pair| i64::from(pair.coefficient))
        });
        for i in 0..2 {
            c[i] += i64::from(tempo.weight) * i64::from(tempo.target) * a[i];
            for j in 0..2 {
                q[i][j] += i64::from(tempo.weight) * a[i] * a[j];
            }
        }
    }
    let numerator = c[0] * q[1][1] - c[1] * q[0][1];
    (numerator, q[0][0] * q[1][1] - q[0][1] * q[1][0])
}

/// For 'clearing the refused marks when a step of length 0 is stopped': the start misses the
/// span, so the words that are freed first are stopped at once, and unless they are then passed
/// over the engine frees them for ever.
pub fn stopped_at_once(rng: &mut Rng) -> Block {
    let key = rng.int(20_000, 40_000) as i32;
    let later = key + 1_000;
    let word = |key: i32, slope: i32| Word {
        key,
        start: key,
        slope,
        ..free_word()
    };
    let heard = key - rng.int(1_000, 8_000) as i32;
    let slope = rng.int(10, 400) as i32;
    Block {
        words: vec![word(0, 0), word(key, slope), word(later, 300)],
        tempos: vec![tempo(1, heard, &[(1, 1)]), tempo(1, 1_000, &[(2, -1)])],
        spans: vec![Span {
            lower: rng.int(1_100, 3_000) as i32,
            upper: 8_000,
            list: list(&[(1, -1), (2, 1)]),
        }],
        cap: FARTHEST,
        ..Block::default()
    }
}

/// For 'taking the first of equal largest rates': two words with the same rate, of which the
/// span lets only one go all the way.
pub fn equal_rates(rng: &mut Rng) -> Block {
    let start = rng.int(5, 2_000) as i32;
    let (lower, room) = (rng.int(1, 500) as i32, rng.int(1, 500) as i32);
    let word = Word {
        upper: 8_000,
        start,
        slope: rng.int(1, 900) as i32,
        ..free_word()
    };
    let other = Word {
        lower,
        upper: lower + room,
        start: lower,
        ..free_word()
    };
    Block {
        words: vec![word, other],
        spans: vec![Span {
            lower: 0,
            upper: start + lower,
            list: list(&[(0, 1), (1, 1)]),
        }],
        cap: FARTHEST,
        ..Block::default()
    }
}

/// A word whose window is the whole range.
fn free_word() -> Word {
    Word {
        lower: 0,
        upper: LATEST,
        key: 0,
        start: 0,
        slope: 0,
    }
}

fn tempo(weight: u16, target: i32, pairs: &[(u8, i8)]) -> Tempo {
    Tempo {
        weight,
        target,
        list: list(pairs),
    }
}

fn list(pairs: &[(u8, i8)]) -> Vec<Pair> {
    let pair = |(word, coefficient): &(u8, i8)| Pair {
        word: *word,
        coefficient: *coefficient,
    };
    pairs.iter().map(pair).collect()
}

#[cfg(test)]
mod tests {
    use super::*;
    use crate::service;
    use crate::slips::{Slip, slipping};

    /// How many of thirty blocks are answered otherwise with the slip.
    fn told(slip: Slip, family: fn(&mut Rng) -> Block) -> usize {
        let mut rng = Rng::new(8);
        let blocks = (0..30).map(|_| family(&mut rng));
        blocks
            .filter(|block| {
                assert_eq!(read(&write(block)).as_ref(), Ok(block));
                let own = service::answer(block);
                slipping(slip, || service::answer(block)) != own
            })
            .count()
    }

    #[test]
    fn blocks_tell_slips() {
        let told = [
            told(Slip::ToleranceOverTargets, over_slacks),
            told(Slip::ToleranceOverPoint, over_slacks),
            told(Slip::RefusedCleared, stopped_at_once),
            told(Slip::FirstOfEqualRates, equal_rates),
        ];
        assert!(told.iter().all(|count| *count > 25), "{told:?}");
    }
}
