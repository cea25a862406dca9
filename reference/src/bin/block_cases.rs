//! Writes the fixed lists of blocks, each the standard input of its program `crates/replay_*`, and prints what
//! they hold.
//!
//!     cargo run --release --offline --bin block_cases -- SEED

use reference::cases::block_lists;

fn main() -> std::io::Result<()> {
    let seed = std::env::args().nth(1).and_then(|seed| seed.parse().ok());
    let seed = seed.expect("usage: block_cases SEED");
    block_lists::places(seed).write("replay_places")?;
    let blocks = block_lists::blocks(seed);
    blocks.list.write("replay_blocks")?;
    println!("{}", blocks.checks.table());
    Ok(())
}
