use super::*;

fn rows<const N: usize>(rows: &[[f64; N]]) -> DMatrix<f64> {
    DMatrix::from_fn(rows.len(), N, |i, j| rows[i][j])
}

/// `V diag(λ) Vᵀ` and `VᵀV`.
fn products(eigen: &SymmetricEigen) -> (DMatrix<f64>, DMatrix<f64>) {
    let v = &eigen.vectors;
    let scaled = DMatrix::from_fn(v.nrows(), v.ncols(), |i, j| v[(i, j)] * eigen.values[j]);
    (scaled * v.transpose(), v.transpose() * v)
}

#[test]
fn one_rotation() {
    // Equal diagonal entries: τ is +0, so t is 1 and the angle 45°.
    let mut a = rows(&[[2.0, 1.0], [1.0, 2.0]]);
    let mut v = DMatrix::identity(2, 2);
    rotate(&mut a, &mut v, 0, 1);
    assert_eq!((a[(0, 1)], a[(1, 0)]), (0.0, 0.0));
    assert!((a[(0, 0)] - 1.0).abs() < 1e-15 && (a[(1, 1)] - 3.0).abs() < 1e-15);
    let c = 1.0 / 2f64.sqrt();
    assert_eq!(v, rows(&[[c, c], [-c, c]]));
}

#[test]
fn a_zero_entry_is_skipped() {
    for zero in [0.0, -0.0] {
        let mut a = rows(&[[2.0, zero], [5.0, 1.0]]);
        let mut v = DMatrix::identity(2, 2);
        rotate(&mut a, &mut v, 0, 1);
        assert_eq!(a[(1, 0)], 5.0);
        assert_eq!(v, DMatrix::identity(2, 2));
    }
}

#[test]
fn past_1e150_the_tangent_is_half_the_inverse() {
    let (mut a, mut v) = (
        rows(&[[0.0, 1e-200], [1e-200, 1.0]]),
        DMatrix::identity(2, 2),
    );
    rotate(&mut a, &mut v, 0, 1);
    let tau = 1.0 / 2e-200;
    assert_eq!(v[(0, 1)], 0.5 / tau);
}

#[test]
fn eigen_of_two_by_two() {
    let a = rows(&[[2.0, 1.0], [1.0, 2.0]]);
    let eigen = SymmetricEigen::new(&a).expect("values");
    assert!((eigen.values[0] - 1.0).abs() < 1e-15 && (eigen.values[1] - 3.0).abs() < 1e-15);
    let (product, identity) = products(&eigen);
    assert!((product - a).amax() < 1e-15);
    assert!((identity - DMatrix::identity(2, 2)).amax() < 1e-15);
    let (range, null) = eigen.split(2.0);
    assert_eq!((range.len(), null.len()), (1, 1));
    assert_eq!(range[0].0, eigen.values[1]);
}

#[test]
fn eigen_of_larger_matrices() {
    let a = DMatrix::from_fn(9, 9, |i, j| ((i * j) % 7) as f64 + ((i + j) % 3) as f64);
    let eigen = SymmetricEigen::new(&a).expect("values");
    let (product, identity) = products(&eigen);
    assert!((product - &a).amax() < 1e-13);
    assert!((identity - DMatrix::identity(9, 9)).amax() < 1e-14);
}

#[test]
fn nothing_for_what_is_not_finite() {
    for entry in [f64::NAN, f64::INFINITY, f64::NEG_INFINITY] {
        assert!(SymmetricEigen::new(&rows(&[[1.0, entry], [entry, 1.0]])).is_none());
    }
}

#[test]
fn zeros_give_zeros_and_the_identity() {
    let eigen = SymmetricEigen::new(&rows(&[[0.0, -0.0], [0.0, 0.0]])).expect("values");
    assert_eq!(eigen.values, DVector::zeros(2));
    assert_eq!(eigen.vectors, DMatrix::identity(2, 2));
    let empty = SymmetricEigen::new(&DMatrix::zeros(0, 0)).expect("values");
    assert_eq!((empty.values.len(), empty.vectors.shape()), (0, (0, 0)));
}
