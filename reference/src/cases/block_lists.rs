//! The fixed lists of blocks: the service's whole answers, and the reader with the check.

use super::attempt::Attempt;
use super::block::{degenerate, halves, large_prices, limits, realistic, tightened, tiny};
use super::code::Encoder;
use super::damage;
use super::known;
use super::lists::{Counts, List};
use super::slips::{equal_rates, over_slacks, stopped_at_once};
use crate::answer;
use crate::block::{self, Anchor, Block, Pair, Tempo, Word, fields, joined, write};
use crate::check::check;
use crate::rng::Rng;
use crate::service::{self, place};

/// A family of good blocks.
type Family = fn(&mut Rng) -> Block;

/// A group of the service's list: so many solved blocks of a family, and among the blocks made
/// meanwhile at most so many of each refusal. An unreachable cap costs about a thousand solves.
struct Group {
    name: &'static str,
    family: Family,
    solved: usize,
    refused: usize,
}

const GROUPS: [Group; 10] = [
    Group {
        name: "tiny",
        family: tiny,
        solved: 450,
        refused: 12,
    },
    Group {
        name: "2 to 4 words",
        family: |rng| few_words(rng, 4),
        solved: 1_350,
        refused: 25,
    },
    Group {
        name: "2 to 5 words, binding cap",
        family: |rng| {
            let block = few_words(rng, 5);
            tightened(rng, block)
        },
        solved: 600,
        refused: 10,
    },
    Group {
        name: "6 to 32 words",
        family: |rng| {
            let words = rng.int(6, 32) as usize;
            realistic(rng, words)
        },
        solved: 80,
        refused: 6,
    },
    Group {
        name: "8 to 32 words, binding cap",
        family: |rng| {
            let words = rng.int(8, 32) as usize;
            let block = realistic(rng, words);
            tightened(rng, block)
        },
        solved: 40,
        refused: 3,
    },
    Group {
        name: "degenerate",
        family: |rng| {
            let words = rng.int(1, 5) as usize;
            degenerate(rng, words)
        },
        solved: 400,
        refused: 30,
    },
    Group {
        name: "halves",
        family: halves,
        solved: 60,
        refused: 0,
    },
    Group {
        name: "large prices",
        family: large_prices,
        solved: 40,
        refused: 5,
    },
    Group {
        name: "limits",
        family: limits,
        solved: 10,
        refused: 2,
    },
    Group {
        name: "slips",
        family: |rng| rng.pick(&[over_slacks as Family, stopped_at_once, equal_rates])(rng),
        solved: 36,
        refused: 0,
    },
];

fn few_words(rng: &mut Rng, most: i64) -> Block {
    let words = rng.int(2, most) as usize;
    realistic(rng, words)
}

/// The list of the service: document 01's known blocks, good blocks by group, short slices,
/// damaged blocks and arbitrary bytes.
pub fn places(seed: u64) -> List {
    let mut list = List::default();
    for block in known::all() {
        push_place(&mut list, "known", &write(&block), answer::length(&block));
    }
    for (number, group) in GROUPS.iter().enumerate() {
        push_group(&mut list, group, seed + number as u64);
    }
    let mut rng = Rng::new(seed);
    for _ in 0..60 {
        let block = few_words(&mut rng, 3);
        let short = rng.below(answer::length(&block));
        push_place(&mut list, "short slice", &write(&block), short);
    }
    for _ in 0..240 {
        let block = tiny(&mut rng);
        let bytes = damage::random(&mut rng, &block);
        let slice = rng.pick(&[0, answer::length(&block)]);
        push_place(&mut list, "damaged", &bytes, slice);
    }
    for _ in 0..40 {
        let bytes = damage::arbitrary(&mut rng);
        push_place(&mut list, "arbitrary", &bytes, 400);
    }
    list
}

/// Blocks of a group until enough are solved. Most slices are as long as the answer.
fn push_group(list: &mut List, group: &Group, seed: u64) {
    for number in 0.. {
        let mut rng = Rng::of_case(seed, number);
        let block = (group.family)(&mut rng);
        let outcome = service::answer(&block).err().unwrap_or(0);
        let most = if outcome == 0 {
            group.solved
        } else {
            group.refused
        };
        if list.counts.of(group.name, outcome) < most {
            let spare = if rng.chance(10) { rng.below(20) } else { 0 };
            let slice = answer::length(&block) + spare;
            push_place(list, group.name, &write(&block), slice);
        }
        if list.counts.of(group.name, 0) == group.solved {
            return;
        }
    }
}

/// A record of the service's list: the block, the slice's length, the outcome, the answer.
fn push_place(list: &mut List, group: &'static str, block: &[u8], slice: usize) {
    let mut body = Encoder::default();
    push_bytes(&mut body, block);
    body.u16(slice);
    let mut answer = vec![0; slice];
    let outcome = place(block, &mut answer);
    let number = outcome.err().unwrap_or(0);
    body.byte(number as usize);
    if let Ok(length) = outcome {
        push_bytes(&mut body, &answer[..length]);
    }
    list.push(group, number, &body.bytes);
}

fn push_bytes(body: &mut Encoder, bytes: &[u8]) {
    body.u16(bytes.len());
    body.bytes.extend(bytes);
}

/// The list of the reader and the check, and what its checks give.
#[derive(Debug, Default)]
pub struct Blocks {
    pub list: List,
    pub checks: Counts,
}

/// The list of the reader and the check.
pub fn blocks(seed: u64) -> Blocks {
    let mut list = Blocks::default();
    let mut rng = Rng::new(seed);
    for block in known::all() {
        push_good(&mut list, "known", &mut rng, &block);
    }
    let families: [(&str, Family, usize); 5] = [
        ("tiny", tiny, 350),
        ("2 to 4 words", |rng| few_words(rng, 4), 300),
        ("degenerate", |rng| degenerate(rng, 4), 120),
        ("6 to 32 words", |rng| few_words(rng, 32), 12),
        ("limits", limits, 8),
    ];
    for (name, family, count) in families {
        for _ in 0..count {
            let block = family(&mut rng);
            push_good(&mut list, name, &mut rng, &block);
        }
    }
    push_faults(&mut list, &mut rng);
    push_cuts(&mut list, &mut rng);
    for _ in 0..550 {
        let block = tiny(&mut rng);
        let bytes = damage::random(&mut rng, &block);
        push_bad(&mut list, "damaged", &mut rng, &bytes);
    }
    for _ in 0..300 {
        let bytes = damage::arbitrary(&mut rng);
        push_bad(&mut list, "arbitrary", &mut rng, &bytes);
    }
    list
}

/// Every fault of every kind of field alone, and some pairs of them.
fn push_faults(list: &mut Blocks, rng: &mut Rng) {
    let block = one_of_each();
    let fields = fields(&block);
    let mut places = Vec::new();
    for (at, field) in fields.iter().enumerate().skip(block.words.len() - 1) {
        let faults = damage::faults(field, block.words.len());
        places.extend(faults.into_iter().map(|fault| (at, fault)));
    }
    for place in &places {
        let bytes = damage::damaged(&fields, std::slice::from_ref(place));
        push_bad(list, "one fault", rng, &bytes);
    }
    for _ in 0..160 {
        let pair = [(); 2].map(|()| places[rng.below(places.len())].clone());
        let bytes = damage::damaged(&fields, &pair);
        push_bad(list, "two faults", rng, &bytes);
    }
}

/// A file cut at every byte, and one byte longer.
fn push_cuts(list: &mut Blocks, rng: &mut Rng) {
    let mut bytes = joined(&fields(&one_of_each()));
    bytes.push(block::WORD);
    for cut in 0..=bytes.len() {
        push_bad(list, "cut", rng, &bytes[..cut]);
    }
}

/// Two words and a field of each other kind.
fn one_of_each() -> Block {
    let word = |key| Word {
        lower: 10,
        upper: 900,
        key,
        start: 20,
        slope: 3,
    };
    let both = vec![
        Pair {
            word: 0,
            coefficient: -1,
        },
        Pair {
            word: 1,
            coefficient: 8,
        },
    ];
    Block {
        words: vec![word(100), word(200)],
        tempos: vec![Tempo {
            weight: 4,
            target: -50,
            list: both.clone(),
        }],
        anchors: vec![Anchor {
            value: 7,
            list: both.clone(),
        }],
        spans: vec![block::Span {
            lower: -5,
            upper: 5,
            list: both,
        }],
        cap: 70,
    }
}

/// A good block, checked with the reference's plan and prices, or the keys where it has none,
/// with two plans or prices changed from these, and with a wrong count or number.
fn push_good(list: &mut Blocks, group: &'static str, rng: &mut Rng, block: &Block) {
    let base = match service::answer(block) {
        Ok(answer) => Attempt {
            times: answer.times,
            prices: answer.prices,
        },
        Err(_) => Attempt::keys(block),
    };
    let changed = [base.changed(rng, block), base.changed(rng, block)];
    let spoiled = base.spoiled(rng);
    let mut attempts = vec![base];
    attempts.extend(changed);
    if rng.chance(60) {
        attempts.push(spoiled);
    }
    push_block(list, group, &write(block), &attempts);
}

/// Bytes that are hardly ever a block, checked with a plan that is hardly ever its own.
fn push_bad(list: &mut Blocks, group: &'static str, rng: &mut Rng, bytes: &[u8]) {
    let (times, prices) = match block::read(bytes) {
        Ok(block) => (block.words.len(), block.prices()),
        Err(_) => (rng.below(3), rng.below(3)),
    };
    let attempt = Attempt::anywhere(rng, times, prices);
    push_block(list, group, bytes, &[attempt]);
}

/// A record of the reader's list: the block, the reading's outcome, the checks.
fn push_block(list: &mut Blocks, group: &'static str, block: &[u8], attempts: &[Attempt]) {
    let mut body = Encoder::default();
    push_bytes(&mut body, block);
    let number = block::read(block).err().unwrap_or(0);
    body.byte(number as usize);
    body.byte(attempts.len());
    for attempt in attempts {
        body.byte(attempt.times.len());
        body.bytes
            .extend(attempt.times.iter().flat_map(|t| t.to_le_bytes()));
        body.byte(attempt.prices.len());
        body.bytes
            .extend(attempt.prices.iter().flat_map(|p| p.to_le_bytes()));
        let outcome = check(block, &attempt.times, &attempt.prices);
        let number = outcome.err().unwrap_or(0);
        list.checks.add("checks", number);
        body.byte(number as usize);
        if let Ok(gap) = outcome {
            body.bytes.extend(gap.to_le_bytes());
        }
    }
    list.list.push(group, number, &body.bytes);
}
