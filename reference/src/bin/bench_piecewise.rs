//! Times `places_solve_piecewise` against the reference on problems from blocks, and prints a table:
//! a row's time is that of a solve, and its name has the passes of one on average.
//!
//!     cargo run --release --offline --features library --bin bench_piecewise

use reference::bench::Table;
use reference::block::Block;
use reference::cases::block::{degenerate, realistic};
use reference::cases::engine::{Call, Case};
use reference::compare::Written;
use reference::rng::Rng;
use reference::{engine, library, service};

const PROBLEMS: usize = 64;

/// Problems that are solved.
fn problems(rng: &mut Rng, block: impl Fn(&mut Rng) -> Block) -> Vec<Case> {
    std::iter::from_fn(|| Some(service::engine_case(&block(rng))))
        .filter(|case| case.run(Call::Piecewise).number == 0)
        .take(PROBLEMS)
        .collect()
}

fn passes(cases: &[Case]) -> f64 {
    let all: u64 = cases.iter().map(|c| c.run(Call::Piecewise).passes).sum();
    all as f64 / cases.len() as f64
}

fn solve(case: &Case) -> (u32, Written) {
    let mut written = Written::new(case.n, case.m + case.r);
    let number = library::solve_piecewise(
        &case.problem(),
        &case.at,
        &case.slopes,
        &case.start,
        &mut written,
    );
    (number, written)
}

fn main() {
    let mut rng = Rng::new(1);
    let mut table = Table::default();
    for (kind, make) in [
        ("realistic", realistic as fn(&mut Rng, usize) -> Block),
        ("degenerate", degenerate),
    ] {
        for words in [2, 8, 16, 32] {
            let cases = problems(&mut rng, |rng| make(rng, words));
            let name = format!(
                "`solve_piecewise`, {kind}, {words} words, {:.1} passes",
                passes(&cases)
            );
            table.measure(
                &name,
                &cases,
                |case| {
                    engine::solve_piecewise(&case.problem(), &case.at, &case.slopes, &case.start)
                },
                solve,
            );
        }
    }
    table.print();
}
