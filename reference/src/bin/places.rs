//! Reads a block from standard input and prints document 01's listing, or `refused` and the
//! number.

use reference::block::{self, Block};
use reference::{exact, service};
use std::io::{Read, Write};

fn main() -> std::io::Result<()> {
    let mut bytes = Vec::new();
    std::io::stdin().read_to_end(&mut bytes)?;
    let text = match listing(&bytes) {
        Ok(text) => text,
        Err(refusal) => format!("refused {refusal}\n"),
    };
    std::io::stdout().write_all(text.as_bytes())
}

/// 'Lines: word number, key time, written time; exact moves and cap; gap; passes.'
fn listing(bytes: &[u8]) -> Result<String, u32> {
    let block: Block = block::read(bytes)?;
    let answer = service::answer(&block)?;
    let mut text = String::from("word key audio\n");
    for (number, (word, time)) in block.words.iter().zip(&answer.times).enumerate() {
        text += &format!("{number} {} {time}\n", word.key);
    }
    let times: Vec<i64> = answer.times.iter().copied().map(i64::from).collect();
    let moves = exact::moves(&block, &times);
    text += &format!("moves {moves} cap {}\n", block.cap);
    text += &format!("gap {}\nrounds {}\n", answer.gap, answer.passes);
    Ok(text)
}
