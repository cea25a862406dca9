//! The examples in `blocks`, and what docs/BLOCKS.md says of them.

use reference::answer::Answer;
use reference::block::{self, Anchor, Block, Pair, STEEPEST};
use reference::exact::{anchor_miss, cost, moves, span_miss};
use reference::service;
use reference::text::make;
use std::path::{Path, PathBuf};

fn path(name: &str) -> PathBuf {
    let folder = Path::new(env!("CARGO_MANIFEST_DIR")).join("../blocks");
    folder.join(name)
}

/// The example's file, which its text describes.
fn file(name: &str) -> Vec<u8> {
    let file = std::fs::read(path(&format!("{name}.block"))).unwrap();
    let text = std::fs::read(path(&format!("{name}.txt"))).unwrap();
    assert_eq!(make(&text).as_ref(), Ok(&file), "{name}");
    file
}

fn example(name: &str) -> Block {
    block::read(&file(name)).expect("a good block")
}

/// The refusal of a block that was read, or 0.
fn refusal(block: &Block) -> u32 {
    service::answer(block).err().unwrap_or(0)
}

fn wide(times: &[i32]) -> Vec<i64> {
    times.iter().copied().map(i64::from).collect()
}

/// The answer to an example whose starts keep its windows, anchors and spans.
fn answer(name: &str) -> Answer {
    let block = example(name);
    let starts: Vec<i64> = block.words.iter().map(|w| w.start.into()).collect();
    for word in &block.words {
        assert!((word.lower..=word.upper).contains(&word.start), "{name}");
    }
    assert!(block.anchors.iter().all(|a| anchor_miss(a, &starts) == 0));
    assert!(block.spans.iter().all(|s| span_miss(s, &starts) == 0));
    service::answer(&block).expect("a plan")
}

fn anchored(value: i32, word: u8) -> Anchor {
    let coefficient = 1;
    Anchor {
        value,
        list: vec![Pair { word, coefficient }],
    }
}

fn with_starts_at_keys(mut block: Block) -> Block {
    for word in &mut block.words {
        word.start = word.key;
    }
    block
}

#[test]
fn examples_are_answered() {
    let question = answer("question");
    let times = [8222, 15094, 19052, 24294, 30009, 62315, 65945];
    assert_eq!((&question.times[..], question.gap), (&times[..], 118_240));
    assert_eq!(cost(&example("question"), &wide(&times)), 4_066_460);

    let capped = answer("cap");
    assert_eq!(moves(&example("cap"), &wide(&capped.times)), 19_999);
    let loose = Block {
        cap: block::FARTHEST,
        ..example("cap")
    };
    let free = service::answer(&loose).unwrap();
    assert_eq!(moves(&loose, &wide(&free.times)), 28_783);

    assert_eq!(answer("anchor").times, [21_745, 52_480, 72_254, 78_654]);

    let spans = answer("spans").times;
    assert_eq!(spans, [9003, 12_003, 15_002, 18_452, 25_452, 40_202]);
    assert_eq!(span_miss(&example("spans").spans[1], &wide(&spans)), 1);

    assert_eq!(block::read(&file("refused")), Err(7));
}

#[test]
fn starts_that_miss() {
    assert_eq!(refusal(&with_starts_at_keys(example("anchor"))), 12);
    assert_eq!(refusal(&with_starts_at_keys(example("spans"))), 14);
    let mut outside = example("anchor");
    outside.anchors[0].value = 65_000;
    assert_eq!(refusal(&outside), 12);
    let mut contradicting = example("anchor");
    contradicting.anchors.push(anchored(52_481, 1));
    assert_eq!(refusal(&contradicting), 12);
}

#[test]
fn every_word_held() {
    let mut steep = example("question");
    for word in &mut steep.words {
        word.slope = STEEPEST;
    }
    assert_eq!(refusal(&steep), 14);
    steep.anchors.push(anchored(66_000, 5));
    steep.words[5].start = 66_000;
    assert_eq!(refusal(&steep), 0);

    let mut unpulled = example("question");
    unpulled.tempos.clear();
    assert_eq!(refusal(&unpulled), 14);
    unpulled.anchors.push(anchored(62_500, 5));
    assert_eq!(refusal(&unpulled), 0);
}

#[test]
fn caps() {
    let mut unanchored = example("cap");
    unanchored.anchors.clear();
    assert_eq!(refusal(&unanchored), 14);
    for (cap, expected) in [(3_900, 0), (3_899, 14)] {
        let block = Block {
            cap,
            ..example("cap")
        };
        assert_eq!(refusal(&block), expected);
    }
}

#[test]
fn gaps() {
    let times = answer("question").times;
    for (room, gap) in [(1_000, 24_000), (100, 2_400)] {
        let mut narrow = example("question");
        for (word, time) in narrow.words.iter_mut().zip(&times) {
            (word.lower, word.upper) = (time - room, time + room);
        }
        let answer = service::answer(&narrow).unwrap();
        assert_eq!((answer.times, answer.gap), (times.clone(), gap));
    }
    let half = make(b"word 0 10 0 2 0\ntempo 1 0 0*1\nanchor 5 0*2\ncap 10\n").unwrap();
    let answer = service::answer(&block::read(&half).unwrap()).unwrap();
    assert_eq!((&answer.times[..], answer.gap), (&[2][..], -2));
}

/// The table 'One block byte by byte' and the text after it.
#[test]
fn block_byte_by_byte() {
    let document = Path::new(env!("CARGO_MANIFEST_DIR")).join("../docs/BLOCKS.md");
    let document = std::fs::read_to_string(document).unwrap();
    let (_, section) = document.split_once("## One block byte by byte").unwrap();
    let (section, _) = section.split_once("\n## ").unwrap();
    let rows = section.lines().filter(|line| line.starts_with("| `"));
    let bytes = rows.flat_map(|row| row.split('|').nth(1).unwrap().split('`').skip(1).step_by(2));
    let bytes = format!("bytes {}", bytes.collect::<Vec<_>>().join(" "));
    let lines = section.lines().filter(|line| line.starts_with("    "));
    let text: Vec<&str> = lines.map(|line| &line[..line.len().min(44)]).collect();
    let file = make(text.join("\n").as_bytes()).unwrap();
    assert_eq!(make(bytes.as_bytes()), Ok(file.clone()));
    assert_eq!(file.len(), 91);
    let answer = service::answer(&block::read(&file).unwrap()).unwrap();
    assert_eq!(
        (&answer.times[..], answer.gap),
        (&[8308, 13_900][..], 34_464)
    );
}
