//! The arithmetic's kernels on plain slices, column after column, for the lists of cases and the
//! benchmarks.

use crate::eigen::{self, SymmetricEigen};
use crate::matrix::{Cholesky, DMatrix, DVector, Dyn, Entries};
use crate::qp;

fn square_matrix(a: &[f64], n: usize) -> DMatrix<f64> {
    DMatrix::from_column_slice(n, n, a)
}

pub fn dot(a: &[f64], b: &[f64]) -> f64 {
    DVector::from_slice(a).dot(&DVector::from_slice(b))
}

/// The matrix library's `norm()`.
pub fn norm(a: &[f64]) -> f64 {
    DVector::from_slice(a).norm()
}

/// The source's own `norm`, which can't overflow.
pub fn scaled_norm(a: &[f64]) -> f64 {
    qp::norm(&DVector::from_slice(a))
}

pub fn amax(a: &[f64]) -> f64 {
    DVector::from_slice(a).amax()
}

/// The factor of an n × n matrix. What is above its diagonal means nothing.
pub fn cholesky(a: &[f64], n: usize) -> Option<Vec<f64>> {
    Cholesky::new(square_matrix(a, n)).map(|factor| factor.l_dirty().entries().to_vec())
}

/// Whether every pivot of the factor `l` is at least the floor.
pub fn positive_definite(l: &[f64], n: usize) -> bool {
    qp::positive_definite(&Cholesky::from_factor(square_matrix(l, n)))
}

/// `L X = right` for the n × k matrix `right`.
pub fn solve_lower_triangular(l: &[f64], right: &[f64], n: usize, k: usize) -> Option<Vec<f64>> {
    square_matrix(l, n)
        .solve_lower_triangular(&DMatrix::from_column_slice(n, k, right))
        .map(|x| x.entries().to_vec())
}

/// `Lᵀ X = right` for the n × k matrix `right`.
pub fn tr_solve_lower_triangular(l: &[f64], right: &[f64], n: usize, k: usize) -> Option<Vec<f64>> {
    square_matrix(l, n)
        .tr_solve_lower_triangular(&DMatrix::from_column_slice(n, k, right))
        .map(|x| x.entries().to_vec())
}

/// The factor `l` of n variables without the one at `position`.
pub fn remove_column(l: &[f64], n: usize, position: usize) -> Vec<f64> {
    Cholesky::from_factor(square_matrix(l, n))
        .remove_column(position)
        .l_dirty()
        .entries()
        .to_vec()
}

/// The factor `l` of n variables with one more at `position`, whose entries are `column`.
pub fn insert_column(l: &[f64], n: usize, position: usize, column: &[f64]) -> Vec<f64> {
    Cholesky::from_factor(square_matrix(l, n))
        .insert_column(position, DVector::from_slice(column))
        .l_dirty()
        .entries()
        .to_vec()
}

/// The QR decomposition of the n × m matrix `a`, `R` above the diagonal and the reflection vectors
/// from it down, and `Qᵀ right` for the n × k matrix `right`.
pub fn qr(a: &[f64], right: &[f64], n: usize, m: usize, k: usize) -> (Vec<f64>, Vec<f64>) {
    let decomposition = DMatrix::from_column_slice(n, m, a).qr();
    let mut product = DMatrix::from_column_slice(n, k, right);
    decomposition.q_tr_mul(&mut product);
    (
        decomposition.packed().entries().to_vec(),
        product.entries().to_vec(),
    )
}

/// The Jacobi rotation of rows and columns `p` and `q`, applied to `a` and to `v`.
pub fn rotate(a: &[f64], v: &[f64], n: usize, p: usize, q: usize) -> (Vec<f64>, Vec<f64>) {
    let (mut a, mut v) = (square_matrix(a, n), square_matrix(v, n));
    eigen::rotate(&mut a, &mut v, p, q);
    (a.entries().to_vec(), v.entries().to_vec())
}

/// The eigenvalues and eigenvectors of `a`.
pub fn eigen(a: &[f64], n: usize) -> Option<(Vec<f64>, Vec<f64>)> {
    SymmetricEigen::new(&square_matrix(a, n)).map(|eigen| {
        (
            eigen.values.entries().to_vec(),
            eigen.vectors.entries().to_vec(),
        )
    })
}

/// A matrix Q and the source's `Factoring` over it.
pub struct Factoring {
    q: DMatrix<f64>,
    factoring: qp::Factoring,
}

impl Factoring {
    /// No factor yet of the n × n matrix `q`.
    pub fn new(q: &[f64], n: usize) -> Self {
        Factoring {
            q: square_matrix(q, n),
            factoring: qp::Factoring::new(),
        }
    }

    /// The factor of the block on `indices`. What is above its diagonal means nothing.
    pub fn update(&mut self, indices: &[usize]) -> Option<Vec<f64>> {
        let factor = self.factoring.update(&self.q, indices);
        factor.map(|factor| factor.l_dirty().entries().to_vec())
    }

    pub fn reset(&mut self) {
        self.factoring.reset();
    }

    /// The factor kept, changed to the block on `indices`, where that can be done.
    pub fn updated(&self, indices: &[usize]) -> Option<Vec<f64>> {
        let (held, factor) = self.factoring.factor.clone()?;
        let changed = qp::updated(&self.q, held, factor, indices);
        changed.map(|factor| factor.l_dirty().entries().to_vec())
    }

    /// The factor of the block on `indices`, with none before it.
    pub fn fresh(&self, indices: &[usize]) -> Option<Vec<f64>> {
        let mut factoring = qp::Factoring::new();
        let factor = factoring.update(&self.q, indices);
        factor.map(|factor| factor.l_dirty().entries().to_vec())
    }

    /// The last singular set.
    pub fn singular(&self) -> Option<&[usize]> {
        self.factoring.singular.as_deref()
    }
}

/// A problem of `solve_factored`.
pub struct Factored {
    factor: Cholesky<f64, Dyn>,
    k: DMatrix<f64>,
    c: DVector<f64>,
    e: DMatrix<f64>,
    b: DVector<f64>,
    noise: f64,
}

impl Factored {
    /// The n × n factor `l` of `k`, and as many columns of `e` as `b` has numbers.
    pub fn new(l: &[f64], [k, c, e, b]: [&[f64]; 4], noise: f64) -> Self {
        let (n, m) = (c.len(), b.len());
        Factored {
            factor: Cholesky::from_factor(square_matrix(l, n)),
            k: square_matrix(k, n),
            c: DVector::from_slice(c),
            e: DMatrix::from_column_slice(n, m, e),
            b: DVector::from_slice(b),
            noise,
        }
    }

    /// x and the multipliers.
    pub fn solve(&self) -> Option<(Vec<f64>, Vec<f64>)> {
        let problem = (&self.k, &self.c, &self.e, &self.b);
        let solution = qp::solve_factored(&self.factor, problem, self.noise);
        solution.map(|(x, multipliers)| (x.entries().to_vec(), multipliers.entries().to_vec()))
    }
}
