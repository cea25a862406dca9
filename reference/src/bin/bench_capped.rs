//! Times `places_solve_turnover_capped` against the reference on problems from realistic blocks
//! whose cap binds, and prints a table: a time is that of a whole search.
//!
//!     cargo run --release --offline --features library --bin bench_capped

use reference::bench::Percentiles;
use reference::cases::block::binding;
use reference::cases::engine::{Call, Case, Outcome};
use reference::compare::Written;
use reference::rng::Rng;
use reference::{engine, library, service};

const PROBLEMS: usize = 200;

/// Problems that are solved at a raise above 0.
fn problems(rng: &mut Rng, words: usize) -> Vec<Case> {
    let raised = |outcome: Outcome| outcome.number == 0 && outcome.raise > 0.0;
    std::iter::from_fn(|| Some(service::engine_case(&binding(rng, words))))
        .filter(|case| raised(case.run(Call::Capped)))
        .take(PROBLEMS)
        .collect()
}

fn solve(case: &Case) -> (u32, Written) {
    let mut written = Written::new(case.n, case.m + case.r);
    let number = library::solve_turnover_capped(
        &case.problem(),
        &case.at,
        &case.slopes,
        &case.start,
        case.cap,
        &mut written,
    );
    (number, written)
}

fn main() {
    let mut rng = Rng::new(1);
    let mut table = Percentiles::default();
    for words in [8, 16, 32] {
        let cases = problems(&mut rng, words);
        for case in &cases {
            let ((number, written), expected) = (solve(case), case.run(Call::Capped));
            assert_eq!((number, written.x), (0, expected.x));
        }
        table.measure(
            &format!("`solve_turnover_capped`, {words} words"),
            &cases,
            |case| {
                let (at, slopes, start) = (&case.at, &case.slopes, &case.start);
                engine::solve_turnover_capped(&case.problem(), at, slopes, start, case.cap)
            },
            solve,
        );
    }
    table.print();
}
