//! Times `places_place` against the reference's service on blocks, and prints a table. A block's
//! time is that of a call, from its bytes to its answer's.
//!
//!     cargo run --release --offline --features library --bin bench_places

use reference::answer::Answer;
use reference::bench::Percentiles;
use reference::block::{Block, FARTHEST, write};
use reference::cases::block::{binding, degenerate, out_of_reach, realistic};
use reference::library;
use reference::rng::Rng;
use reference::service;

/// Room for the longest answer.
type Slice = [u8; 350];

fn reference(block: &[u8]) -> (u32, Slice) {
    let mut slice = [0; 350];
    let number = service::place(block, &mut slice).err().unwrap_or(0);
    (number, slice)
}

fn library(block: &[u8]) -> (u32, Slice) {
    let mut slice = [0; 350];
    let mut written = 0;
    let number = library::place(block, &mut slice, &mut written);
    (number, slice)
}

/// A family of blocks: those of so many words that a generator makes and whose outcome is wanted.
struct Family {
    name: &'static str,
    block: fn(&mut Rng, usize) -> Block,
    wanted: fn(&Result<Answer, u32>) -> bool,
    words: &'static [usize],
    count: usize,
}

impl Family {
    /// The files of so many blocks.
    fn files(&self, rng: &mut Rng, words: usize) -> Vec<Vec<u8>> {
        std::iter::from_fn(|| Some((self.block)(rng, words)))
            .filter(|block| block.words.len() == words && (self.wanted)(&service::answer(block)))
            .take(self.count)
            .map(|block| write(&block))
            .collect()
    }
}

const FAMILIES: [Family; 4] = [
    Family {
        name: "realistic, slack cap",
        block: |rng, words| Block {
            cap: FARTHEST,
            ..realistic(rng, words)
        },
        wanted: |answer| answer.is_ok(),
        words: &[8, 16, 32],
        count: 200,
    },
    Family {
        name: "realistic, binding cap",
        block: binding,
        wanted: |answer| answer.as_ref().is_ok_and(|a| a.prices.last() > Some(&0)),
        words: &[8, 16, 32],
        count: 200,
    },
    Family {
        name: "degenerate, any outcome",
        block: degenerate,
        wanted: |_| true,
        words: &[8, 32],
        count: 200,
    },
    // About a thousand solves each.
    Family {
        name: "cap out of reach",
        block: out_of_reach,
        wanted: |answer| *answer == Err(14),
        words: &[8, 32],
        count: 20,
    },
];

fn main() {
    let mut rng = Rng::new(1);
    let mut table = Percentiles::default();
    for family in FAMILIES {
        for &words in family.words {
            let blocks = family.files(&mut rng, words);
            for block in &blocks {
                assert!(reference(block) == library(block), "{block:?}");
            }
            let name = format!("{}, {words} words", family.name);
            table.measure(
                &name,
                &blocks,
                |block| reference(block),
                |block| library(block),
            );
        }
    }
    table.print();
}
