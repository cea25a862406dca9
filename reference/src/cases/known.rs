//! Document 01, 'Known blocks'.

use crate::block::{Anchor, Block, Pair, Tempo, Word};

/// 'One word 0..100, key 40, start 0, slope 0; tempo weight 1, target 70, coefficient 1; cap 10.'
pub fn listed() -> Block {
    Block {
        words: vec![word(0, 100, 40, 0)],
        tempos: vec![Tempo {
            weight: 1,
            target: 70,
            list: only_word(),
        }],
        cap: 10,
        ..Block::default()
    }
}

/// 'That block with cap 100 and an anchor 45 of coefficient 1.'
pub fn anchored() -> Block {
    Block {
        anchors: vec![anchor(45)],
        cap: 100,
        ..listed()
    }
}

/// 'Window 50..50, key 40', with a cap.
pub fn pinned(cap: i32) -> Block {
    Block {
        words: vec![word(50, 50, 40, 50)],
        cap,
        ..Block::default()
    }
}

/// 'Window 5..5, key 5', with an anchor.
pub fn fixed(value: i32) -> Block {
    Block {
        words: vec![word(5, 5, 5, 5)],
        anchors: vec![anchor(value)],
        ..Block::default()
    }
}

/// All that are run.
pub fn all() -> [Block; 6] {
    [
        listed(),
        anchored(),
        pinned(9),
        pinned(10),
        fixed(6),
        fixed(5),
    ]
}

fn word(lower: i32, upper: i32, key: i32, start: i32) -> Word {
    Word {
        lower,
        upper,
        key,
        start,
        slope: 0,
    }
}

fn anchor(value: i32) -> Anchor {
    Anchor {
        value,
        list: only_word(),
    }
}

/// The one list of these blocks.
fn only_word() -> Vec<Pair> {
    vec![Pair {
        word: 0,
        coefficient: 1,
    }]
}
