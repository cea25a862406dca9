//! Places 60 realistic blocks of 2 to 32 words, each once, for a count of the library's instructions.
//!
//!     cargo build --release --offline --features library --bin instructions
//!     valgrind --tool=callgrind --toggle-collect=places_place target/release/instructions

use reference::block::write;
use reference::cases::block::realistic;
use reference::library;
use reference::rng::Rng;

const BLOCKS: usize = 60;

fn main() {
    let mut rng = Rng::new(1);
    let mut placed = 0;
    for i in 0..BLOCKS {
        let block = write(&realistic(&mut rng, 2 + i % 31));
        let mut answer = [0; 350];
        let mut written = 0;
        if library::place(&block, &mut answer, &mut written) == 0 {
            placed += 1;
        }
    }
    println!("{placed} of {BLOCKS} blocks placed");
}
