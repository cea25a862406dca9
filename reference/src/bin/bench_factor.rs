//! Times the factor's update, a fresh factor and `solve_factored`, which the crate `probe` exports,
//! against the reference, and prints a table.
//!
//!     cargo run --release --offline --features library --bin bench_factor

use reference::bench::{Problem, Table, definite};
use reference::cases::algebra::lower;
use reference::kernels::{Factored, Factoring, cholesky};
use reference::rng::Rng;

#[link(name = "probe", kind = "static")]
unsafe extern "C" {
    fn probe_update(
        q: *const f64,
        q_len: usize,
        n: usize,
        joins: usize,
        leaves: usize,
        l: *mut f64,
        l_len: usize,
        room: *mut f64,
        room_len: usize,
    ) -> u32;

    fn probe_fresh(
        q: *const f64,
        q_len: usize,
        n: usize,
        l: *mut f64,
        l_len: usize,
        room: *mut f64,
        room_len: usize,
    ) -> u32;

    fn probe_solve_factored(
        l: *const f64,
        l_len: usize,
        k: *const f64,
        k_len: usize,
        c: *const f64,
        c_len: usize,
        e: *const f64,
        e_len: usize,
        b: *const f64,
        b_len: usize,
        n: usize,
        m: usize,
        noise: f64,
        w: *mut f64,
        w_len: usize,
        gram: *mut f64,
        gram_len: usize,
        x: *mut f64,
        x_len: usize,
        multipliers: *mut f64,
        multipliers_len: usize,
    ) -> u32;
}

/// A matrix Q of n variables, and the factor of its block on all but the one that joins.
struct Change {
    n: usize,
    q: Vec<f64>,
    joins: usize,
    leaves: usize,
    l: Vec<f64>,
    kept: Factoring,
    listed: Vec<usize>,
}

impl Change {
    fn new(rng: &mut Rng, n: usize) -> Self {
        let q = definite(rng, n);
        let joins = rng.below(n);
        let leaves = (joins + 1 + rng.below(n - 1)) % n;
        let all_but = |i| (0..n).filter(|&j| j != i).collect::<Vec<_>>();
        let mut kept = Factoring::new(&q, n);
        let mut l = kept.update(&all_but(joins)).expect("a definite matrix");
        l.resize(n * n, 0.0);
        Change {
            listed: all_but(leaves),
            n,
            q,
            joins,
            leaves,
            l,
            kept,
        }
    }

    fn library(&self) -> Option<Vec<f64>> {
        let (mut l, mut room) = (self.l.clone(), vec![0.0; self.n * self.n]);
        // SAFETY: each pointer is that of a slice of the length after it.
        let found = unsafe {
            probe_update(
                self.q.as_ptr(),
                self.q.len(),
                self.n,
                self.joins,
                self.leaves,
                l.as_mut_ptr(),
                l.len(),
                room.as_mut_ptr(),
                room.len(),
            )
        };
        (found == 1).then_some(l)
    }
}

fn update(table: &mut Table, rng: &mut Rng, n: usize) {
    let changes: Vec<_> = (0..16).map(|_| Change::new(rng, n)).collect();
    for change in &changes {
        let triangle = |l: Option<Vec<f64>>| l.map(|l| lower(&l, n - 1));
        let expected = triangle(change.kept.updated(&change.listed));
        assert_eq!(triangle(change.library()), expected);
    }
    table.measure(
        &format!("update, one joins and one leaves, of {n}"),
        &changes,
        |change| change.kept.updated(&change.listed),
        Change::library,
    );
}

/// The factor of all of Q.
fn library_fresh(q: &[f64], n: usize) -> Option<Vec<f64>> {
    let (mut l, mut room) = (vec![0.0; n * n], vec![0.0; n * n]);
    // SAFETY: each pointer is that of a slice of the length after it.
    let found = unsafe {
        probe_fresh(
            q.as_ptr(),
            q.len(),
            n,
            l.as_mut_ptr(),
            l.len(),
            room.as_mut_ptr(),
            room.len(),
        )
    };
    (found == 1).then_some(l)
}

fn fresh(table: &mut Table, rng: &mut Rng, n: usize) {
    let matrices: Vec<_> = (0..16)
        .map(|_| {
            let q = definite(rng, n);
            (Factoring::new(&q, n), q)
        })
        .collect();
    let all: Vec<usize> = (0..n).collect();
    for (factoring, q) in &matrices {
        let triangle = |l: Option<Vec<f64>>| l.map(|l| lower(&l, n));
        let expected = triangle(factoring.fresh(&all));
        assert_eq!(triangle(library_fresh(q, n)), expected);
    }
    table.measure(
        &format!("fresh factor of {n}"),
        &matrices,
        |(factoring, _)| factoring.fresh(&all),
        |(_, q)| library_fresh(q, n),
    );
}

/// A problem, with the factor of K.
struct System {
    problem: Problem,
    l: Vec<f64>,
    factored: Factored,
}

impl System {
    fn new(rng: &mut Rng, n: usize, m: usize) -> Self {
        let problem = Problem::new(rng, n, m);
        let l = cholesky(&problem.k, n).expect("a definite matrix");
        System {
            factored: Factored::new(&l, problem.slices(), 0.0),
            problem,
            l,
        }
    }

    fn library(&self) -> Option<(Vec<f64>, Vec<f64>)> {
        let p = &self.problem;
        let (mut w, mut gram) = (vec![0.0; p.n * p.m], vec![0.0; p.m * p.m]);
        let (mut x, mut multipliers) = (vec![0.0; p.n], vec![0.0; p.m]);
        // SAFETY: each pointer is that of a slice of the length after it.
        let found = unsafe {
            probe_solve_factored(
                self.l.as_ptr(),
                self.l.len(),
                p.k.as_ptr(),
                p.k.len(),
                p.c.as_ptr(),
                p.c.len(),
                p.e.as_ptr(),
                p.e.len(),
                p.b.as_ptr(),
                p.b.len(),
                p.n,
                p.m,
                0.0,
                w.as_mut_ptr(),
                w.len(),
                gram.as_mut_ptr(),
                gram.len(),
                x.as_mut_ptr(),
                x.len(),
                multipliers.as_mut_ptr(),
                multipliers.len(),
            )
        };
        (found == 1).then_some((x, multipliers))
    }
}

fn solve_factored(table: &mut Table, rng: &mut Rng, n: usize, m: usize) {
    let systems: Vec<_> = (0..16).map(|_| System::new(rng, n, m)).collect();
    for system in &systems {
        assert_eq!(system.library(), system.factored.solve());
    }
    table.measure(
        &format!("`solve_factored`, n = {n}, m = {m}"),
        &systems,
        |system| system.factored.solve(),
        System::library,
    );
}

fn main() {
    let mut rng = Rng::new(1);
    let mut table = Table::default();
    for n in [8, 16, 32] {
        update(&mut table, &mut rng, n);
    }
    for n in [2, 8, 32] {
        fresh(&mut table, &mut rng, n);
    }
    for n in [2, 8, 32] {
        for m in [0, 2, 8] {
            solve_factored(&mut table, &mut rng, n, m);
        }
    }
    table.print();
}
