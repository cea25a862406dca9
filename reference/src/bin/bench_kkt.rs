//! Times `places_solve_kkt` against the reference, and prints a table.
//!
//!     cargo run --release --offline --features library --bin bench_kkt

use reference::bench::{Problem, Table};
use reference::engine;
use reference::library;
use reference::rng::Rng;

fn solve_kkt(p: &Problem) -> (u32, Vec<f64>, Vec<f64>) {
    let (mut x, mut multipliers) = (vec![0.0; p.n], vec![0.0; p.m]);
    let number = library::solve_kkt(p.slices(), p.n, p.m, &mut x, &mut multipliers);
    (number, x, multipliers)
}

fn main() {
    let mut rng = Rng::new(1);
    let mut table = Table::default();
    for m in [0, 1, 4] {
        for n in [1, 2, 4, 8, 16, 32] {
            let problems: Vec<_> = (0..16).map(|_| Problem::new(&mut rng, n, m)).collect();
            table.measure(
                &format!("`solve_kkt`, n = {n}, m = {m}"),
                &problems,
                |p| engine::solve_kkt(&p.k, &p.c, &p.e, &p.b, p.n, p.m),
                solve_kkt,
            );
        }
    }
    table.print();
}
