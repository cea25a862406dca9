//! Times the arithmetic's kernels, which the crate `probe` exports, against the reference, and
//! prints a table.
//!
//!     cargo run --release --offline --features library --bin bench_kernels

use reference::bench::{Table, definite};
use reference::kernels;
use reference::rng::Rng;

#[link(name = "probe", kind = "static")]
unsafe extern "C" {
    safe fn probe_sqrt(x: f64) -> f64;
    fn probe_dot(a: *const f64, a_len: usize, b: *const f64, b_len: usize) -> f64;
    fn probe_cholesky(a: *mut f64, a_len: usize, n: usize) -> u32;
    fn probe_eigen(
        a: *mut f64,
        a_len: usize,
        n: usize,
        room: *mut f64,
        room_len: usize,
        values: *mut f64,
        values_len: usize,
        vectors: *mut f64,
        vectors_len: usize,
    ) -> u32;
}

const N: usize = 32;

fn dot((a, b): &(Vec<f64>, Vec<f64>)) -> f64 {
    // SAFETY: each pointer is that of a slice of the length after it.
    unsafe { probe_dot(a.as_ptr(), a.len(), b.as_ptr(), b.len()) }
}

fn cholesky(a: &[f64]) -> (u32, Vec<f64>) {
    let mut l = a.to_vec();
    // SAFETY: the pointer is that of a slice of the length after it.
    let found = unsafe { probe_cholesky(l.as_mut_ptr(), l.len(), N) };
    (found, l)
}

fn eigen(a: &[f64]) -> (u32, Vec<f64>, Vec<f64>) {
    let (mut a, mut room) = (a.to_vec(), vec![0.0; N * N]);
    let (mut values, mut vectors) = (vec![0.0; N], vec![0.0; N * N]);
    // SAFETY: each pointer is that of a slice of the length after it.
    let found = unsafe {
        probe_eigen(
            a.as_mut_ptr(),
            a.len(),
            N,
            room.as_mut_ptr(),
            room.len(),
            values.as_mut_ptr(),
            values.len(),
            vectors.as_mut_ptr(),
            vectors.len(),
        )
    };
    (found, values, vectors)
}

fn main() {
    let mut rng = Rng::new(1);
    let numbers: Vec<f64> = (0..4096).map(|_| rng.unit() * 1e6).collect();
    let mut column = || (0..48).map(|_| rng.unit() - 0.5).collect::<Vec<f64>>();
    let pairs: Vec<_> = (0..64).map(|_| (column(), column())).collect();
    let matrices: Vec<_> = (0..8).map(|_| definite(&mut rng, N)).collect();

    let mut table = Table::default();
    table.measure("root", &numbers, |x| x.sqrt(), |&x| probe_sqrt(x));
    table.measure("dot of 48", &pairs, |(a, b)| kernels::dot(a, b), dot);
    table.measure(
        "Cholesky of 32",
        &matrices,
        |a| kernels::cholesky(a, N),
        |a| cholesky(a),
    );
    table.measure(
        "eigenvectors of 32",
        &matrices,
        |a| kernels::eigen(a, N),
        |a| eigen(a),
    );
    table.print();
}
