//! Compares `places_place` of the proved static library with the reference at scale: refusals,
//! every byte of the answer's slice, and that a refusal writes nothing.
//!
//!     cargo run --release --offline --features library --bin compare_places -- SEED COUNT

use reference::cases::lists::Counts;
use reference::cases::scale::place_case;
use reference::compare;
use reference::library;
use reference::service::place;

/// What stands in the answer's slice and in its length before each call.
const UNTOUCHED: u8 = 0xA5;
const UNCOUNTED: u64 = 0x5A5A_5A5A_5A5A_5A5A;

/// A call's number, the answer's length and the whole slice afterwards.
type Outcome = (u32, u64, Vec<u8>);

fn library(block: &[u8], length: usize) -> Outcome {
    let mut slice = vec![UNTOUCHED; length];
    let mut written = UNCOUNTED;
    let number = library::place(block, &mut slice, &mut written);
    (number, written, slice)
}

fn reference(block: &[u8], length: usize) -> Outcome {
    let mut slice = vec![UNTOUCHED; length];
    match place(block, &mut slice) {
        Ok(written) => (0, written as u64, slice),
        Err(refusal) => (refusal, UNCOUNTED, slice),
    }
}

fn main() {
    let (seed, count) = compare::arguments();
    let mut counts = Counts::default();
    let mut differences = 0;
    for number in 0..count {
        let case = place_case(seed, number);
        let expected = reference(&case.block, case.slice);
        let found = library(&case.block, case.slice);
        counts.add(case.family, expected.0);
        if found != expected {
            differences += 1;
            if differences == 1 {
                println!("seed {seed}, case {number}: {case:?}");
                println!("reference: {expected:?}\nlibrary:   {found:?}\n");
            }
        }
    }
    println!("{}", counts.table());
    println!("{count} cases of places from seed {seed}: {differences} differ");
    if differences > 0 {
        std::process::exit(1);
    }
}
