//! Compares `places_solve_kkt` with the reference on seeded cases.
//!
//!     cargo run --release --offline --features library --bin compare_kkt -- SEED COUNT

use reference::cases::engine::{Call, Case};
use reference::compare::{self, Written};
use reference::library;

fn solve(case: &Case, written: &mut Written) -> u32 {
    library::solve_kkt(
        [&case.q, &case.c, &case.e, &case.b],
        case.n,
        case.m,
        &mut written.x,
        &mut written.multipliers,
    )
}

fn main() {
    compare::engine(Call::Kkt, solve);
}
