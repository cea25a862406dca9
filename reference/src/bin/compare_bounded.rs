//! Compares `places_solve_bounded` with the reference on seeded cases.
//!
//!     cargo run --release --offline --features library --bin compare_bounded -- SEED COUNT

use reference::cases::engine::Call;
use reference::compare;
use reference::library;

fn main() {
    compare::engine(Call::Bounded, |case, written| {
        library::solve_bounded(&case.problem(), &case.start, written)
    });
}
