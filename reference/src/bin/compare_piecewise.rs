//! Compares `places_solve_piecewise` with the reference on seeded cases.
//!
//!     cargo run --release --offline --features library --bin compare_piecewise -- SEED COUNT

use reference::cases::engine::Call;
use reference::compare;
use reference::library;

fn main() {
    compare::engine(Call::Piecewise, |case, written| {
        library::solve_piecewise(
            &case.problem(),
            &case.at,
            &case.slopes,
            &case.start,
            written,
        )
    });
}
