//! Compares `places_solve_turnover_capped` with the reference on seeded cases.
//!
//!     cargo run --release --offline --features library --bin compare_capped -- SEED COUNT

use reference::cases::engine::Call;
use reference::compare;
use reference::library;

fn main() {
    compare::engine(Call::Capped, |case, written| {
        library::solve_turnover_capped(
            &case.problem(),
            &case.at,
            &case.slopes,
            &case.start,
            case.cap,
            written,
        )
    });
}
