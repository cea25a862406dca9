//! Good blocks: tiny, realistic, degenerate, and with every limit at its largest.

use crate::block::*;
use crate::exact::{list_sum, moves};
use crate::rng::Rng;
use crate::service;

/// One to three words with windows of a few samples, so that every plan can be tried.
pub fn tiny(rng: &mut Rng) -> Block {
    let words = rng.int(1, 3) as usize;
    let mut block = Block::default();
    for _ in 0..words {
        let lower = rng.int(0, 5) as i32;
        let upper = lower + rng.int(0, 7) as i32;
        block.words.push(Word {
            lower,
            upper,
            key: rng.int(0, 12) as i32,
            start: rng.int(lower.into(), upper.into()) as i32,
            slope: rng.int(0, 3) as i32,
        });
    }
    for _ in 0..rng.int(1, 4) {
        let list = random_list(rng, words, words, 3);
        block.tempos.push(Tempo {
            weight: rng.int(1, 5) as u16,
            target: sum_at_start(&block, &list) + rng.int(-9, 9) as i32,
            list,
        });
    }
    for _ in 0..rng.below(2) {
        let list = random_list(rng, words, words, 2);
        let value = sum_at_start(&block, &list) + i32::from(rng.chance(5));
        block.anchors.push(Anchor { value, list });
    }
    for _ in 0..rng.below(3) {
        let list = random_list(rng, words, words, 2);
        let sum = sum_at_start(&block, &list);
        block.spans.push(Span {
            lower: sum - rng.int(0, 4) as i32,
            upper: sum + rng.int(0, 4) as i32,
            list,
        });
    }
    let over = rng.int(0, 9) - i64::from(rng.chance(10));
    block.cap = (least_moves(&block) + over).max(0) as i32;
    block
}

/// The moves of the keys held to their windows.
fn least_moves(block: &Block) -> i64 {
    let moved = |w: &Word| i64::from((w.key.clamp(w.lower, w.upper) - w.key).abs());
    block.words.iter().map(moved).sum()
}

/// A passage of speech: rising times, keys some way behind them, windows round both, tempo terms
/// on neighbouring words, shortest durations as spans. The start keeps anchors and spans in most.
pub fn realistic(rng: &mut Rng, words: usize) -> Block {
    let mut block = Block::default();
    let mut time = rng.int(0, 4_000) as i32;
    let steep = rng.pick(&[0, 20, 400, 6_000]);
    for _ in 0..words {
        let key = (time + rng.int(-2_000, 6_000) as i32).clamp(0, LATEST);
        let room = rng.int(0, 9_000) as i32;
        block.words.push(Word {
            lower: (key.min(time) - room).max(0),
            upper: (key.max(time) + room).min(LATEST),
            key,
            start: time,
            slope: rng.int(0, steep) as i32,
        });
        time += rng.int(800, 7_500) as i32;
    }
    add_tempos(rng, &mut block);
    add_limits(rng, &mut block);
    block.cap = realistic_cap(rng, &block);
    if rng.chance(12) {
        for word in &mut block.words {
            word.start = word.key;
        }
    }
    block
}

/// Durations and their evenness between neighbours, and times heard in the audio.
fn add_tempos(rng: &mut Rng, block: &mut Block) {
    let words = block.words.len();
    let heard = rng.pick(&[20, 60, 100]);
    for i in 0..words {
        if rng.chance(heard) {
            add_tempo(rng, block, i, &[1], 1_500);
        }
        if i + 1 < words && rng.chance(85) {
            add_tempo(rng, block, i, &[-1, 1], 1_500);
        }
        if i + 2 < words && rng.chance(15) {
            add_tempo(rng, block, i, &[1, -2, 1], 800);
        }
    }
}

/// A term on the words from `first` on, its target some way off the start's sum.
fn add_tempo(rng: &mut Rng, block: &mut Block, first: usize, coefficients: &[i8], off: i64) {
    if block.tempos.len() == most_fields(TEMPO) {
        return;
    }
    let list = neighbours(first, coefficients);
    block.tempos.push(Tempo {
        weight: rng.int(1, 64) as u16,
        target: sum_at_start(block, &list) + rng.int(-off, off) as i32,
        list,
    });
}

/// Shortest and longest durations, and a few anchors, which the start keeps.
fn add_limits(rng: &mut Rng, block: &mut Block) {
    let words = block.words.len();
    let (spanned, anchored) = (rng.pick(&[0, 20, 60]), rng.pick(&[0, 0, 8]));
    for i in 0..words {
        if rng.chance(anchored) && block.anchors.len() < most_fields(ANCHOR) {
            let pair: &[i8] = if i + 1 < words && rng.chance(40) {
                &[-1, 1]
            } else {
                &[1]
            };
            let list = neighbours(i, pair);
            let value = sum_at_start(block, &list);
            block.anchors.push(Anchor { value, list });
        }
        if i + 1 < words && rng.chance(spanned) && block.spans.len() < most_fields(SPAN) {
            let list = neighbours(i, &[-1, 1]);
            let sum = sum_at_start(block, &list);
            block.spans.push(Span {
                lower: sum.min(rng.int(300, 3_000) as i32),
                upper: sum.max(rng.pick(&[8_000, 16_000, FARTHEST])),
                list,
            });
        }
    }
}

/// A cap that no plan reaches, or a part of the start's moves.
fn realistic_cap(rng: &mut Rng, block: &Block) -> i32 {
    let moves: i64 = block
        .words
        .iter()
        .map(|w| i64::from((w.start - w.key).abs()))
        .sum();
    match rng.below(4) {
        0 => FARTHEST,
        1 => (moves + rng.int(0, 20_000)) as i32,
        _ => (moves * rng.int(10, 95) / 100) as i32,
    }
}

/// The block with a cap that binds: a part of the moves of its plan without one. As it was where
/// it has no such plan.
pub fn tightened(rng: &mut Rng, mut block: Block) -> Block {
    let loose = Block {
        cap: FARTHEST,
        ..block.clone()
    };
    if let Ok(answer) = service::answer(&loose) {
        let times: Vec<i64> = answer.times.iter().copied().map(i64::from).collect();
        let (least, most) = (least_moves(&block), moves(&block, &times) as i64);
        block.cap = (least + (most - least) * rng.int(30, 99) / 100) as i32;
    }
    block
}

/// A realistic block with an anchor on a word whose key misses it. So no raise of the slopes holds
/// every word at its key, which without an anchor ends in 14.
fn off_key(rng: &mut Rng, words: usize) -> (Block, Word) {
    loop {
        let mut block = realistic(rng, words);
        let at = rng.below(words);
        let word = block.words[at];
        if word.start != word.key && block.anchors.len() < most_fields(ANCHOR) {
            block.anchors.push(Anchor {
                value: word.start,
                list: neighbours(at, &[1]),
            });
            return (block, word);
        }
    }
}

/// A realistic block with a cap that binds, most of which are solved.
pub fn binding(rng: &mut Rng, words: usize) -> Block {
    let (block, _) = off_key(rng, words);
    tightened(rng, block)
}

/// A realistic block with a cap that an anchor alone passes, which costs about a thousand solves.
pub fn out_of_reach(rng: &mut Rng, words: usize) -> Block {
    let (mut block, word) = off_key(rng, words);
    block.cap = rng.below((word.start - word.key).unsigned_abs() as usize) as i32;
    block
}

/// Words that only their numbers tell apart.
pub fn ties(rng: &mut Rng, words: usize) -> Block {
    let mut block = realistic(rng, words);
    alike(rng, &mut block);
    block
}

/// A realistic block in which one to three things coincide or vanish.
pub fn degenerate(rng: &mut Rng, words: usize) -> Block {
    let mut block = if rng.chance(50) {
        tiny(rng)
    } else {
        realistic(rng, words)
    };
    for _ in 0..rng.int(1, 3) {
        degenerate_once(rng, &mut block);
    }
    block
}

fn degenerate_once(rng: &mut Rng, block: &mut Block) {
    let at = rng.below(block.words.len());
    match rng.below(15) {
        // A word that can't move, and all words so.
        0 => hold(&mut block.words[at]),
        1 => block.words.iter_mut().for_each(hold),
        // No curvature, or no slopes.
        2 => block.tempos.clear(),
        3 => block.words.iter_mut().for_each(|word| word.slope = 0),
        // The same term, anchor or span twice; two anchors that can't both be kept.
        4 => repeat_first(&mut block.tempos, TEMPO),
        5 => repeat_first(&mut block.anchors, ANCHOR),
        6 => repeat_first(&mut block.spans, SPAN),
        7 => {
            repeat_first(&mut block.anchors, ANCHOR);
            if let Some(anchor) = block.anchors.last_mut() {
                anchor.value = (anchor.value + 1).min(FARTHEST);
            }
        }
        // A span with one sample of room or none, at whose end the start stands.
        8 => {
            let room = rng.below(2) as i32;
            let list = random_list(rng, block.words.len(), 2, 1);
            let lower = sum_at_start(block, &list);
            let upper = lower + room;
            if block.spans.len() < most_fields(SPAN) {
                block.spans.push(Span { lower, upper, list });
            }
        }
        // A key outside its window; a start outside it, or at the key.
        9 => block.words[at].key = rng.pick(&[0, LATEST]),
        10 => block.words[at].start = rng.pick(&[0, LATEST]),
        11 => block.words[at].start = block.words[at].key,
        // Words that only their numbers tell apart.
        12 => alike(rng, block),
        13 => block.cap = 0,
        _ => {
            let target = rng.pick(&[-FARTHEST, FARTHEST]);
            block
                .tempos
                .iter_mut()
                .for_each(|tempo| tempo.target = target);
        }
    }
}

fn hold(word: &mut Word) {
    word.start = word.start.clamp(word.lower, word.upper);
    (word.lower, word.upper) = (word.start, word.start);
}

fn repeat_first<T: Clone>(items: &mut Vec<T>, tag: u8) {
    if let Some(first) = items.first().cloned()
        && items.len() < most_fields(tag)
    {
        items.push(first);
    }
}

/// Every word as the first, each with the same term of its own, and no other lists.
fn alike(rng: &mut Rng, block: &mut Block) {
    let first = block.words[0];
    block.words.fill(first);
    let (weight, target) = (
        rng.int(1, 4) as u16,
        rng.int(0, 2 * i64::from(first.key)) as i32,
    );
    block.tempos = (0..block.words.len())
        .map(|i| Tempo {
            weight,
            target,
            list: neighbours(i, &[1]),
        })
        .collect();
    block.anchors.clear();
    block.spans.clear();
    block.cap = (rng.int(0, 4) * i64::from((first.upper - first.lower) / 2)) as i32;
}

/// Best times, and with an anchor prices too, that lie halfway between whole numbers.
pub fn halves(rng: &mut Rng) -> Block {
    let words = rng.int(1, 4) as usize;
    let mut block = Block {
        cap: FARTHEST,
        ..Block::default()
    };
    for i in 0..words {
        let time = rng.int(0, 1_000) as i32;
        block.words.push(Word {
            lower: 0,
            upper: 2_000,
            key: time,
            start: time,
            slope: 0,
        });
        for target in [time, time + 1 + 2 * rng.below(4) as i32] {
            block.tempos.push(Tempo {
                weight: 1,
                target,
                list: neighbours(i, &[1]),
            });
        }
    }
    if words > 1 && rng.chance(50) {
        let list = neighbours(0, &[1, 1]);
        let value = sum_at_start(&block, &list);
        block.anchors.push(Anchor { value, list });
    }
    block
}

/// Terms so strong that an anchor's price, or that of a small cap, leaves its range.
pub fn large_prices(rng: &mut Rng) -> Block {
    let words = rng.int(2, 3) as usize;
    let mut block = Block::default();
    for _ in 0..words {
        let start = rng.int(0, LATEST.into()) as i32;
        block.words.push(Word {
            lower: 0,
            upper: LATEST,
            key: start,
            start,
            slope: rng.int(0, STEEPEST.into()) as i32,
        });
    }
    for i in 0..words {
        let coefficient = rng.pick(&[-STRONGEST, STRONGEST]);
        for _ in 0..rng.int(1, 5) {
            block.tempos.push(Tempo {
                weight: rng.int(50, 64) as u16,
                target: rng.pick(&[-FARTHEST, FARTHEST]),
                list: neighbours(i, &[coefficient]),
            });
        }
    }
    if rng.chance(50) {
        let list = neighbours(0, rng.pick(&[&[1][..], &[-1], &[1, -1]]));
        let value = sum_at_start(&block, &list);
        block.anchors.push(Anchor { value, list });
    }
    block.cap = rng.int(0, 300_000) as i32;
    block
}

/// 32 words, 64 tempos, 8 anchors, 16 spans, each list with 4 pairs: 2,343 bytes.
pub fn limits(rng: &mut Rng) -> Block {
    let extreme = rng.chance(40);
    let mut block = Block {
        cap: rng.pick(&[FARTHEST, FARTHEST, 2_000_000, 400_000]),
        ..Block::default()
    };
    for _ in 0..most_fields(WORD) {
        let start = rng.int(0, LATEST.into()) as i32;
        let room = if extreme {
            LATEST
        } else {
            rng.int(0, 60_000) as i32
        };
        block.words.push(Word {
            lower: (start - room).max(0),
            upper: (start + room).min(LATEST),
            key: if extreme {
                rng.pick(&[0, LATEST])
            } else {
                rng.int(0, LATEST.into()) as i32
            },
            start,
            slope: if extreme {
                STEEPEST
            } else {
                rng.int(0, STEEPEST.into()) as i32
            },
        });
    }
    for _ in 0..most_fields(TEMPO) {
        let target = rng.int(-i64::from(FARTHEST), FARTHEST.into()) as i32;
        block.tempos.push(Tempo {
            weight: if extreme {
                HEAVIEST
            } else {
                rng.int(1, 64) as u16
            },
            target: if extreme {
                FARTHEST * target.signum()
            } else {
                target
            },
            list: full_list(rng, extreme),
        });
    }
    for _ in 0..most_fields(ANCHOR) {
        let list = full_list(rng, extreme);
        let value = sum_at_start(&block, &list);
        block.anchors.push(Anchor { value, list });
    }
    for _ in 0..most_fields(SPAN) {
        let list = full_list(rng, extreme);
        let sum = sum_at_start(&block, &list);
        let room = if extreme {
            2 * FARTHEST
        } else {
            rng.int(0, 100_000) as i32
        };
        block.spans.push(Span {
            lower: (sum - room).max(-FARTHEST),
            upper: (sum + room).min(FARTHEST),
            list,
        });
    }
    block
}

/// Four pairs over all 32 words.
fn full_list(rng: &mut Rng, extreme: bool) -> Vec<Pair> {
    let mut words: Vec<u8> = Vec::new();
    while words.len() < MOST_PAIRS {
        let word = rng.below(most_fields(WORD)) as u8;
        if !words.contains(&word) {
            words.push(word);
        }
    }
    words.sort_unstable();
    let size = |rng: &mut Rng| if extreme { 8 } else { rng.int(1, 8) as i8 };
    words
        .into_iter()
        .map(|word| Pair {
            word,
            coefficient: size(rng) * rng.pick(&[-1, 1]),
        })
        .collect()
}

/// A list of up to `most` pairs on the first `words` words, with coefficients up to `size`.
fn random_list(rng: &mut Rng, words: usize, most: usize, size: i64) -> Vec<Pair> {
    let count = rng.int(1, most.min(words).min(MOST_PAIRS) as i64) as usize;
    let mut list = Vec::new();
    for word in 0..words {
        let left = words - word;
        if rng.below(left) < count - list.len() {
            list.push(Pair {
                word: word as u8,
                coefficient: (rng.int(1, size) * rng.pick(&[-1, 1])) as i8,
            });
        }
    }
    list
}

/// These coefficients on the words from `first` on.
fn neighbours(first: usize, coefficients: &[i8]) -> Vec<Pair> {
    coefficients
        .iter()
        .enumerate()
        .map(|(k, coefficient)| Pair {
            word: (first + k) as u8,
            coefficient: *coefficient,
        })
        .collect()
}

fn sum_at_start(block: &Block, list: &[Pair]) -> i32 {
    let starts: Vec<i64> = block.words.iter().map(|w| w.start.into()).collect();
    list_sum(list, &starts) as i32
}
