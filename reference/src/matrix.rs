//! The small matrix module in place of nalgebra, with the names of what `qp.rs` and `eigen.rs`
//! call. Each function is written from a line of document 01's list "The reference build", which
//! its comment quotes. Views are copies here: nothing of the source depends on their sharing.

use std::cmp::Ordering;
use std::convert::Infallible;
use std::ops::{Add, Div, DivAssign, Index, IndexMut, Mul, Sub, SubAssign};

/// "Every sum, products of matrices and iterator sums included, starts at +0 and adds in rising
/// index order." (`Iterator::sum` of floats starts at −0.)
pub trait SumFromZero: Iterator<Item = f64> + Sized {
    fn sum_from_zero(self) -> f64 {
        self.fold(0.0, |sum, term| sum + term)
    }
}

impl<I: Iterator<Item = f64>> SumFromZero for I {}

/// "In `total_cmp` every NaN is equal to every other and above +infinity."
pub fn total_cmp(a: &f64, b: &f64) -> Ordering {
    match (a.is_nan(), b.is_nan()) {
        (false, false) => a.total_cmp(b),
        (a, b) => a.cmp(&b),
    }
}

/// "`powi(2)` is v times v."
pub fn square(v: f64) -> f64 {
    v * v
}

/// A matrix or a vector: its entries, column after column.
pub trait Entries {
    fn entries(&self) -> &[f64];

    fn iter(&self) -> std::slice::Iter<'_, f64> {
        self.entries().iter()
    }

    /// "`amax` passes over NaN and is 0 for nothing or for NaN alone."
    fn amax(&self) -> f64 {
        let sizes = self.iter().map(|entry| entry.abs());
        sizes.fold(0.0, |max, size| if size > max { size } else { max })
    }

    /// "The `norm()` of a column or matrix is the root of the sum of squares, column after
    /// column."
    fn norm(&self) -> f64 {
        self.iter().map(|&v| square(v)).sum_from_zero().sqrt()
    }
}

/// A matrix, column after column: entry `(i, j)` is at `i + j * rows`.
#[derive(Debug, Clone, PartialEq)]
pub struct DMatrix<T> {
    rows: usize,
    columns: usize,
    entries: Vec<T>,
}

/// A column.
#[derive(Debug, Clone, PartialEq)]
pub struct DVector<T> {
    entries: Vec<T>,
}

impl Entries for DMatrix<f64> {
    fn entries(&self) -> &[f64] {
        &self.entries
    }
}

impl Entries for DVector<f64> {
    fn entries(&self) -> &[f64] {
        &self.entries
    }
}

impl<T> Index<(usize, usize)> for DMatrix<T> {
    type Output = T;

    fn index(&self, (i, j): (usize, usize)) -> &T {
        assert!(i < self.rows, "row out of range");
        &self.entries[i + j * self.rows]
    }
}

impl<T> IndexMut<(usize, usize)> for DMatrix<T> {
    fn index_mut(&mut self, (i, j): (usize, usize)) -> &mut T {
        assert!(i < self.rows, "row out of range");
        &mut self.entries[i + j * self.rows]
    }
}

impl<T> Index<usize> for DVector<T> {
    type Output = T;

    fn index(&self, i: usize) -> &T {
        &self.entries[i]
    }
}

impl<T> IndexMut<usize> for DVector<T> {
    fn index_mut(&mut self, i: usize) -> &mut T {
        &mut self.entries[i]
    }
}

impl DVector<f64> {
    pub fn from_fn(len: usize, f: impl Fn(usize, usize) -> f64) -> Self {
        DVector::from_iterator(len, (0..len).map(|i| f(i, 0)))
    }

    pub fn from_iterator(len: usize, entries: impl IntoIterator<Item = f64>) -> Self {
        let entries: Vec<f64> = entries.into_iter().take(len).collect();
        assert_eq!(entries.len(), len, "too few entries");
        DVector { entries }
    }

    pub fn from_slice(entries: &[f64]) -> Self {
        DVector::from_iterator(entries.len(), entries.iter().copied())
    }

    pub fn zeros(len: usize) -> Self {
        DVector::from_fn(len, |_, _| 0.0)
    }

    pub fn len(&self) -> usize {
        self.entries.len()
    }

    pub fn as_slice(&self) -> &[f64] {
        &self.entries
    }

    pub fn into_owned(self) -> Self {
        self
    }

    pub fn map(&self, f: impl Fn(f64) -> f64) -> Self {
        DVector::from_iterator(self.len(), self.iter().map(|&v| f(v)))
    }

    fn zip_map(&self, other: &Self, f: impl Fn(f64, f64) -> f64) -> Self {
        assert_eq!(self.len(), other.len(), "vectors of different lengths");
        let pairs = self.iter().zip(other.iter());
        DVector::from_iterator(self.len(), pairs.map(|(&a, &b)| f(a, b)))
    }

    pub fn abs(&self) -> Self {
        self.map(f64::abs)
    }

    pub fn add_scalar(&self, scalar: f64) -> Self {
        self.map(|v| v + scalar)
    }

    pub fn component_mul(&self, other: &Self) -> Self {
        self.zip_map(other, |a, b| a * b)
    }

    pub fn component_div(&self, other: &Self) -> Self {
        self.zip_map(other, |a, b| a / b)
    }

    /// "Every sum … starts at +0 and adds in rising index order."
    pub fn sum(&self) -> f64 {
        self.iter().copied().sum_from_zero()
    }

    /// "Every sum, products of matrices … included, starts at +0 and adds in rising index order."
    pub fn dot(&self, other: &Self) -> f64 {
        assert_eq!(self.len(), other.len(), "vectors of different lengths");
        let pairs = self.iter().zip(other.iter());
        pairs.map(|(a, b)| a * b).sum_from_zero()
    }

    pub fn rows(&self, first: usize, count: usize) -> Self {
        DVector::from_slice(&self.entries[first..first + count])
    }

    pub fn select_rows(&self, indices: &[usize]) -> Self {
        DVector::from_iterator(indices.len(), indices.iter().map(|&i| self[i]))
    }
}

impl DMatrix<f64> {
    pub fn from_fn(rows: usize, columns: usize, f: impl Fn(usize, usize) -> f64) -> Self {
        let entries = (0..columns)
            .flat_map(|j| (0..rows).map(move |i| (i, j)))
            .map(|(i, j)| f(i, j))
            .collect();
        DMatrix {
            rows,
            columns,
            entries,
        }
    }

    pub fn from_column_slice(rows: usize, columns: usize, entries: &[f64]) -> Self {
        assert_eq!(
            entries.len(),
            rows * columns,
            "entries don't fill the matrix"
        );
        DMatrix {
            rows,
            columns,
            entries: entries.to_vec(),
        }
    }

    pub fn from_columns(columns: &[DVector<f64>]) -> Self {
        DMatrix::from_fn(columns[0].len(), columns.len(), |i, j| columns[j][i])
    }

    pub fn zeros(rows: usize, columns: usize) -> Self {
        DMatrix::from_fn(rows, columns, |_, _| 0.0)
    }

    pub fn identity(rows: usize, columns: usize) -> Self {
        DMatrix::from_fn(rows, columns, |i, j| if i == j { 1.0 } else { 0.0 })
    }

    pub fn nrows(&self) -> usize {
        self.rows
    }

    pub fn ncols(&self) -> usize {
        self.columns
    }

    pub fn shape(&self) -> (usize, usize) {
        (self.rows, self.columns)
    }

    pub fn into_owned(self) -> Self {
        self
    }

    pub fn column(&self, j: usize) -> DVector<f64> {
        DVector::from_slice(&self.entries[j * self.rows..(j + 1) * self.rows])
    }

    pub fn column_iter(&self) -> impl Iterator<Item = DVector<f64>> + '_ {
        (0..self.columns).map(|j| self.column(j))
    }

    pub fn column_iter_mut(&mut self) -> impl Iterator<Item = ColumnMut<'_>> {
        let rows = self.rows;
        let mut left = self.entries.as_mut_slice();
        (0..self.columns).map(move |_| {
            let (column, rest) = std::mem::take(&mut left).split_at_mut(rows);
            left = rest;
            ColumnMut(column)
        })
    }

    pub fn set_column(&mut self, j: usize, column: &DVector<f64>) {
        self.entries[j * self.rows..(j + 1) * self.rows].copy_from_slice(column.as_slice());
    }

    pub fn rows(&self, first: usize, count: usize) -> Self {
        self.view((first, 0), (count, self.columns))
    }

    pub fn view(&self, (row, column): (usize, usize), (rows, columns): (usize, usize)) -> Self {
        DMatrix::from_fn(rows, columns, |i, j| self[(row + i, column + j)])
    }

    pub fn view_mut(&mut self, start: (usize, usize), shape: (usize, usize)) -> ViewMut<'_> {
        ViewMut {
            matrix: self,
            start,
            shape,
        }
    }

    pub fn select_rows(&self, indices: &[usize]) -> Self {
        DMatrix::from_fn(indices.len(), self.columns, |i, j| self[(indices[i], j)])
    }

    pub fn select_columns(&self, indices: &[usize]) -> Self {
        DMatrix::from_fn(self.rows, indices.len(), |i, j| self[(i, indices[j])])
    }

    pub fn diagonal(&self) -> DVector<f64> {
        DVector::from_fn(self.rows.min(self.columns), |i, _| self[(i, i)])
    }

    /// "Every sum … starts at +0 and adds in rising index order."
    pub fn trace(&self) -> f64 {
        self.diagonal().sum()
    }

    pub fn transpose(&self) -> Self {
        DMatrix::from_fn(self.columns, self.rows, |i, j| self[(j, i)])
    }

    /// `selfᵀ * right`.
    pub fn tr_mul(&self, right: &DVector<f64>) -> DVector<f64> {
        self.transpose() * right
    }

    fn map(&self, f: impl Fn(f64) -> f64) -> Self {
        DMatrix::from_fn(self.rows, self.columns, |i, j| f(self[(i, j)]))
    }

    fn zip_map(&self, other: &Self, f: impl Fn(f64, f64) -> f64) -> Self {
        assert_eq!(self.shape(), other.shape(), "matrices of different shapes");
        DMatrix::from_fn(self.rows, self.columns, |i, j| {
            f(self[(i, j)], other[(i, j)])
        })
    }

    /// "`try_symmetric_eigen` gives nothing, so Jacobi starts from the identity, as the source's
    /// own fallback does."
    pub fn try_symmetric_eigen(self, _tolerance: f64, _iterations: usize) -> Option<Infallible> {
        None
    }

    pub fn qr(self) -> Qr {
        Qr::new(self)
    }
}

/// "Every sum, products of matrices … included, starts at +0 and adds in rising index order."
fn product(left: &DMatrix<f64>, right: &DMatrix<f64>) -> DMatrix<f64> {
    assert_eq!(left.columns, right.rows, "a product's shapes don't match");
    DMatrix::from_fn(left.rows, right.columns, |i, j| {
        (0..left.columns)
            .map(|k| left[(i, k)] * right[(k, j)])
            .sum_from_zero()
    })
}

/// [`product`] with one column on the right.
fn product_column(left: &DMatrix<f64>, right: &DVector<f64>) -> DVector<f64> {
    assert_eq!(left.columns, right.len(), "a product's shapes don't match");
    DVector::from_fn(left.rows, |i, _| {
        (0..left.columns)
            .map(|k| left[(i, k)] * right[k])
            .sum_from_zero()
    })
}

/// An operator on any mix of owned and lent operands. "A sum taken off an entry is formed
/// first": each operator works out its whole result, so `a - b * c` takes finished sums off `a`.
macro_rules! operators {
    ($($operator:ident $name:ident ($left:ty, $right:ty) -> $result:ty = $function:expr;)*) => {$(
        operators!(@one $operator $name (&$left, &$right) -> $result = $function);
        operators!(@one $operator $name (&$left, $right) -> $result = |l, r| $function(l, &r));
        operators!(@one $operator $name ($left, &$right) -> $result = |l, r| $function(&l, r));
        operators!(@one $operator $name ($left, $right) -> $result = |l, r| $function(&l, &r));
    )*};
    (@one $operator:ident $name:ident ($left:ty, $right:ty) -> $result:ty = $function:expr) => {
        impl $operator<$right> for $left {
            type Output = $result;

            fn $name(self, right: $right) -> $result {
                let function: fn($left, $right) -> $result = $function;
                function(self, right)
            }
        }
    };
}

operators! {
    Mul mul (DMatrix<f64>, DMatrix<f64>) -> DMatrix<f64> = product;
    Mul mul (DMatrix<f64>, DVector<f64>) -> DVector<f64> = product_column;
    Mul mul (DMatrix<f64>, f64) -> DMatrix<f64> = |m: &DMatrix<f64>, s: &f64| m.map(|v| v * s);
    Div div (DMatrix<f64>, f64) -> DMatrix<f64> = |m: &DMatrix<f64>, s: &f64| m.map(|v| v / s);
    Add add (DMatrix<f64>, DMatrix<f64>) -> DMatrix<f64> =
        |l: &DMatrix<f64>, r: &DMatrix<f64>| l.zip_map(r, |a, b| a + b);
    Sub sub (DMatrix<f64>, DMatrix<f64>) -> DMatrix<f64> =
        |l: &DMatrix<f64>, r: &DMatrix<f64>| l.zip_map(r, |a, b| a - b);
    Mul mul (DVector<f64>, f64) -> DVector<f64> = |x: &DVector<f64>, s: &f64| x.map(|v| v * s);
    Div div (DVector<f64>, f64) -> DVector<f64> = |x: &DVector<f64>, s: &f64| x.map(|v| v / s);
    Add add (DVector<f64>, DVector<f64>) -> DVector<f64> =
        |l: &DVector<f64>, r: &DVector<f64>| l.zip_map(r, |a, b| a + b);
    Sub sub (DVector<f64>, DVector<f64>) -> DVector<f64> =
        |l: &DVector<f64>, r: &DVector<f64>| l.zip_map(r, |a, b| a - b);
}

impl SubAssign<DMatrix<f64>> for DMatrix<f64> {
    fn sub_assign(&mut self, right: DMatrix<f64>) {
        *self = &*self - right;
    }
}

/// A lent column.
pub struct ColumnMut<'a>(&'a mut [f64]);

impl DivAssign<f64> for ColumnMut<'_> {
    fn div_assign(&mut self, divisor: f64) {
        for entry in self.0.iter_mut() {
            *entry /= divisor;
        }
    }
}

/// A lent part of a matrix.
pub struct ViewMut<'a> {
    matrix: &'a mut DMatrix<f64>,
    start: (usize, usize),
    shape: (usize, usize),
}

impl ViewMut<'_> {
    pub fn copy_from(&mut self, source: &DMatrix<f64>) {
        assert_eq!(self.shape, source.shape(), "matrices of different shapes");
        for j in 0..self.shape.1 {
            for i in 0..self.shape.0 {
                self.matrix[(self.start.0 + i, self.start.1 + j)] = source[(i, j)];
            }
        }
    }

    pub fn fill_diagonal(&mut self, value: f64) {
        for i in 0..self.shape.0.min(self.shape.1) {
            self.matrix[(self.start.0 + i, self.start.1 + i)] = value;
        }
    }
}

/// The right side of a triangular system: a column, or each column of a matrix.
pub trait RightSide: Sized {
    /// `self` with every column solved, or nothing if one isn't.
    fn solve_columns(&self, solve: impl Fn(&DVector<f64>) -> Option<DVector<f64>>) -> Option<Self>;
}

impl RightSide for DVector<f64> {
    fn solve_columns(&self, solve: impl Fn(&DVector<f64>) -> Option<DVector<f64>>) -> Option<Self> {
        solve(self)
    }
}

impl RightSide for DMatrix<f64> {
    fn solve_columns(&self, solve: impl Fn(&DVector<f64>) -> Option<DVector<f64>>) -> Option<Self> {
        let mut solved = self.clone();
        for (j, column) in self.column_iter().enumerate() {
            solved.set_column(j, &solve(&column)?);
        }
        Some(solved)
    }
}

/// Triangular systems, from the lower triangle alone: "each unknown is (right side − the sum over
/// those known) / diagonal; a diagonal of 0 gives nothing."
impl DMatrix<f64> {
    /// Solves `L x = right`, the first unknown first.
    pub fn solve_lower_triangular<R: RightSide>(&self, right: &R) -> Option<R> {
        right.solve_columns(|right| {
            let mut x = right.clone();
            for i in 0..self.rows {
                let known = (0..i).map(|k| self[(i, k)] * x[k]).sum_from_zero();
                x[i] = self.unknown(i, right[i] - known)?;
            }
            Some(x)
        })
    }

    /// Solves `Lᵀ x = right`, the last unknown first. The sum over those known rises in index.
    pub fn tr_solve_lower_triangular<R: RightSide>(&self, right: &R) -> Option<R> {
        right.solve_columns(|right| {
            let mut x = right.clone();
            for i in (0..self.rows).rev() {
                let known = (i + 1..self.rows)
                    .map(|k| self[(k, i)] * x[k])
                    .sum_from_zero();
                x[i] = self.unknown(i, right[i] - known)?;
            }
            Some(x)
        })
    }

    fn unknown(&self, i: usize, left: f64) -> Option<f64> {
        (self[(i, i)] != 0.0).then(|| left / self[(i, i)])
    }
}

/// The size of a matrix, which nalgebra's `Cholesky` has as a parameter.
#[derive(Debug, Clone, Copy)]
pub struct Dyn;

/// A Cholesky factor `L` with `LLᵀ = A`. What stands above its diagonal means nothing.
#[derive(Debug, Clone)]
pub struct Cholesky<T, D> {
    l: DMatrix<T>,
    _size: D,
}

impl Cholesky<f64, Dyn> {
    /// "Cholesky: column by column, from the lower triangle; a value under the root that is NaN
    /// or not above 0 is a failure. The empty matrix has the empty factor."
    pub fn new(mut l: DMatrix<f64>) -> Option<Self> {
        for j in 0..l.nrows() {
            let under = l[(j, j)] - (0..j).map(|k| l[(j, k)] * l[(j, k)]).sum_from_zero();
            if under.is_nan() || under <= 0.0 {
                return None;
            }
            let diagonal = under.sqrt();
            l[(j, j)] = diagonal;
            for i in j + 1..l.nrows() {
                let known = (0..j).map(|k| l[(i, k)] * l[(j, k)]).sum_from_zero();
                l[(i, j)] = (l[(i, j)] - known) / diagonal;
            }
        }
        Some(Cholesky::from_factor(l))
    }

    /// The factor `l` itself.
    pub fn from_factor(l: DMatrix<f64>) -> Self {
        Cholesky { l, _size: Dyn }
    }

    pub fn l_dirty(&self) -> &DMatrix<f64> {
        &self.l
    }

    /// `LLᵀ x = right`, by the two triangular systems. The factor's diagonal holds no 0.
    pub fn solve(&self, right: &DVector<f64>) -> DVector<f64> {
        self.l
            .solve_lower_triangular(right)
            .and_then(|y| self.l.tr_solve_lower_triangular(&y))
            .expect("a factor's diagonal holds no 0")
    }

    /// "A variable leaving … Leaving: v is the removed column below its diagonal, s = +1."
    pub fn remove_column(self, position: usize) -> Self {
        let n = self.l.nrows();
        let v = self.l.column(position).rows(position + 1, n - position - 1);
        let kept: Vec<usize> = (0..n).filter(|&i| i != position).collect();
        let mut l = self.l.select_rows(&kept).select_columns(&kept);
        rank_one(&mut l, position, 1.0, v);
        Cholesky::from_factor(l)
    }

    /// "Joining: the new row w comes from the triangular system, its diagonal is root(q_ii − w·w),
    /// the column below is (q − rows·w) over that diagonal, then v is that column and s = −1."
    pub fn insert_column(self, position: usize, q: DVector<f64>) -> Self {
        let n = self.l.nrows();
        let w = self
            .l
            .view((0, 0), (position, position))
            .solve_lower_triangular(&q.rows(0, position))
            .expect("a factor's diagonal holds no 0");
        let diagonal = (q[position] - w.dot(&w)).sqrt();
        let rows = self.l.view((position, 0), (n - position, position));
        let below = (q.rows(position + 1, n - position) - rows * &w) / diagonal;

        let mut l = DMatrix::zeros(n + 1, n + 1);
        let place = |i: usize| if i < position { i } else { i + 1 };
        for j in 0..n {
            for i in j..n {
                l[(place(i), place(j))] = self.l[(i, j)];
            }
        }
        for k in 0..position {
            l[(position, k)] = w[k];
        }
        l[(position, position)] = diagonal;
        for i in position..n {
            l[(i + 1, position)] = below[i - position];
        }
        rank_one(&mut l, position + 1, -1.0, below);
        Cholesky::from_factor(l)
    }
}

/// "A variable leaving or joining a factor changes the rows below by a rank-one step, sign s (+1
/// or −1), vector v, for each j: r = root(d·d + s·v_j·v_j) with d the diagonal entry, c = r/d,
/// t = v_j/d; the diagonal becomes r, and for each i below j L_ij = (L_ij + s·t·v_i)/c, then
/// v_i = c·v_i − t·L_ij with the new L_ij." The rows and columns are those from `first` on.
fn rank_one(l: &mut DMatrix<f64>, first: usize, s: f64, mut v: DVector<f64>) {
    for j in 0..v.len() {
        let d = l[(first + j, first + j)];
        let r = (d * d + s * v[j] * v[j]).sqrt();
        let c = r / d;
        let t = v[j] / d;
        l[(first + j, first + j)] = r;
        for i in j + 1..v.len() {
            let changed = (l[(first + i, first + j)] + s * t * v[i]) / c;
            l[(first + i, first + j)] = changed;
            v[i] = c * v[i] - t * changed;
        }
    }
}

/// A Householder QR decomposition: the reflections, and what they make of the matrix.
pub struct Qr {
    /// `R` above the diagonal. From the diagonal down, each column's reflection vector, or the
    /// zero column that makes none.
    packed: DMatrix<f64>,
    /// The reflections in order: the row each starts at, and its vector.
    reflections: Vec<(usize, DVector<f64>)>,
}

impl Qr {
    /// "`qr`: Householder (Golub and Van Loan), sign opposite to the leading entry, where ±0
    /// counts as positive; a zero column makes no reflection. For x, the column from its diagonal
    /// down, v is x with its first entry less the norm under that sign; every column y to the
    /// right … becomes y − v·(2·(v·y)/(v·v)) in the same rows."
    fn new(mut packed: DMatrix<f64>) -> Self {
        let (n, m) = packed.shape();
        let mut reflections = Vec::new();
        for k in 0..n.min(m) {
            let mut v = packed.column(k).rows(k, n - k);
            if v.iter().all(|&entry| entry == 0.0) {
                continue;
            }
            let norm = v.norm();
            let signed = if v[0] < 0.0 { norm } else { -norm };
            v[0] -= signed;
            for j in k + 1..m {
                reflect(&mut packed, j, k, &v);
            }
            for i in k..n {
                packed[(i, k)] = v[i - k];
            }
            reflections.push((k, v));
        }
        Qr {
            packed,
            reflections,
        }
    }

    /// `R` above the diagonal and the reflection vectors from it down.
    pub fn packed(&self) -> &DMatrix<f64> {
        &self.packed
    }

    /// "… and every column that `q_tr_mul` is given, becomes y − v·(2·(v·y)/(v·v)) in the same
    /// rows."
    pub fn q_tr_mul(&self, right: &mut DMatrix<f64>) {
        for (k, v) in &self.reflections {
            for j in 0..right.ncols() {
                reflect(right, j, *k, v);
            }
        }
    }
}

/// Reflects the rows from `first` on of column `j`.
fn reflect(matrix: &mut DMatrix<f64>, j: usize, first: usize, v: &DVector<f64>) {
    let y = matrix.column(j).rows(first, v.len());
    let factor = 2.0 * v.dot(&y) / v.dot(v);
    for (i, entry) in (y - v * factor).iter().enumerate() {
        matrix[(first + i, j)] = *entry;
    }
}

#[cfg(test)]
mod tests;
