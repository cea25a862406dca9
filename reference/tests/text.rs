//! A block's text: each file, good, damaged or arbitrary, comes back from it.

use reference::block::{self, Block, write};
use reference::cases::block::{degenerate, halves, large_prices, limits, realistic, tiny};
use reference::cases::damage;
use reference::rng::Rng;
use reference::text::{make, show};

/// The file that the text of `file` describes.
fn back(file: &[u8]) -> Vec<u8> {
    make(show(file).as_bytes()).expect("a file's text")
}

#[test]
fn good_blocks_come_back() {
    let mut rng = Rng::new(11);
    let families: [fn(&mut Rng) -> Block; 6] = [
        tiny,
        |rng| {
            let words = rng.int(1, 32) as usize;
            realistic(rng, words)
        },
        |rng| degenerate(rng, 6),
        halves,
        large_prices,
        limits,
    ];
    for family in families {
        for _ in 0..1_000 {
            let block = family(&mut rng);
            let file = write(&block);
            let text = show(&file);
            assert!(!text.contains("bytes"), "{text}");
            assert_eq!(back(&file), file);
            assert_eq!(block::read(&back(&file)), Ok(block));
        }
    }
}

#[test]
fn other_files_come_back() {
    let mut rng = Rng::new(12);
    for _ in 0..10_000 {
        let block = tiny(&mut rng);
        let damaged = damage::random(&mut rng, &block);
        assert_eq!(back(&damaged), damaged);
        let arbitrary = damage::arbitrary(&mut rng);
        assert_eq!(back(&arbitrary), arbitrary);
        let noise: Vec<u8> = (0..rng.below(60)).map(|_| rng.below(7) as u8).collect();
        assert_eq!(back(&noise), noise);
    }
}
