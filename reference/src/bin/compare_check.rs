//! Compares `places_check` of the proved static library with the reference at scale: refusals,
//! gaps, and that a refusal writes nothing.
//!
//!     cargo run --release --offline --features library --bin compare_check -- SEED COUNT

use reference::cases::lists::Counts;
use reference::cases::scale::check_case;
use reference::check::check;
use reference::compare;
use reference::library;

/// What stands in the gap before each call.
const UNTOUCHED: i64 = 0x5A5A_5A5A_5A5A_5A5A;

/// A call's number, and the gap's place afterwards.
type Outcome = (u32, i64);

fn reference(block: &[u8], times: &[i32], prices: &[i64]) -> Outcome {
    match check(block, times, prices) {
        Ok(gap) => (0, gap),
        Err(refusal) => (refusal, UNTOUCHED),
    }
}

fn library(block: &[u8], times: &[i32], prices: &[i64]) -> Outcome {
    let mut gap = UNTOUCHED;
    let number = library::check(block, times, prices, &mut gap);
    (number, gap)
}

fn main() {
    let (seed, count) = compare::arguments();
    let mut counts = Counts::default();
    let mut differences = 0;
    for number in 0..count {
        let (block, attempt) = check_case(seed, number);
        let expected = reference(&block, &attempt.times, &attempt.prices);
        let found = library(&block, &attempt.times, &attempt.prices);
        counts.add("check", expected.0);
        if found != expected {
            differences += 1;
            if differences == 1 {
                println!("seed {seed}, case {number}: {block:?}\n{attempt:?}");
                println!("reference: {expected:?}\nlibrary:   {found:?}\n");
            }
        }
    }
    println!("{}", counts.table());
    println!("{count} cases of check from seed {seed}: {differences} differ");
    if differences > 0 {
        std::process::exit(1);
    }
}
