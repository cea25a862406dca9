//! Compares `places_sqrt` with the machine's root on numbers of every class.
//!
//!     cargo run --release --offline --features library --bin compare_sqrt -- SEED COUNT

use reference::cases::algebra::{Generator, Kind};
use reference::cases::code::same;
use reference::compare::arguments;
use reference::library;

fn main() {
    let (seed, count) = arguments();
    let seeded = (0..count).map(|number| Generator::case(Kind::Root, seed, number).first[0]);
    // Every sign and exponent, with the patterns next to each power of two.
    let exponents = (0..4096u64)
        .flat_map(|field| (-4..=4).map(move |step| (field << 52).wrapping_add_signed(step)))
        .map(f64::from_bits);
    let (mut total, mut differences) = (0u64, 0u64);
    for x in exponents.chain(seeded) {
        let (expected, given) = (x.sqrt(), library::sqrt(x));
        total += 1;
        if !same(expected, given) {
            differences += 1;
            if differences == 1 {
                let [x, expected, given] = [x, expected, given].map(f64::to_bits);
                println!("root of {x:016x}: reference {expected:016x}, library {given:016x}");
            }
        }
    }
    println!("{total} roots from seed {seed}: {differences} differ");
    if differences > 0 {
        std::process::exit(1);
    }
}
