use super::*;

fn vector(entries: &[f64]) -> DVector<f64> {
    DVector::from_slice(entries)
}

/// A positive definite matrix of `n` variables in units.
fn definite(n: usize) -> DMatrix<f64> {
    DMatrix::from_fn(n, n, |i, j| if i == j { 1.0 } else { 0.1 })
}

#[test]
fn six_listed_with_one_joining_update_and_five_factor_afresh() {
    for (listed, afresh) in [(6, 1), (5, 2)] {
        let q = definite(6);
        let mut factoring = Factoring::new();
        let indices: Vec<usize> = (0..listed).collect();
        assert!(factoring.update(&q, &indices[..listed - 1]).is_some());
        assert!(factoring.update(&q, &indices).is_some());
        assert_eq!(factoring.factorizations, afresh, "{listed} listed");
    }
}

#[test]
fn leaving_updates_whatever_the_number() {
    let mut factoring = Factoring::new();
    assert!(factoring.update(&definite(4), &[0, 1, 2, 3]).is_some());
    assert!(factoring.update(&definite(4), &[2]).is_some());
    assert_eq!(factoring.factorizations, 1);
}

#[test]
fn a_set_that_contains_the_last_singular_one_is_not_factored() {
    let q = DMatrix::from_fn(3, 3, |_, _| 1.0);
    let mut factoring = Factoring::new();
    assert!(factoring.update(&q, &[0, 1]).is_none());
    assert!(factoring.update(&q, &[0, 1, 2]).is_none());
    assert_eq!(factoring.factorizations, 1);
    assert!(factoring.update(&q, &[1, 2]).is_none());
    assert_eq!(factoring.factorizations, 2);
}

#[test]
fn the_pivot_floor() {
    let pivot = |p: f64| Cholesky::from_factor(DMatrix::from_fn(1, 1, |_, _| p));
    let floor = 2f64.powi(-13);
    assert!(positive_definite(&pivot(floor)));
    assert!(!positive_definite(&pivot(floor.next_down())));
    assert!(!positive_definite(&pivot(f64::NAN)));
    assert!(positive_definite(&pivot(f64::INFINITY)));
}

#[test]
fn the_scaled_norm() {
    let far = 2f64.powi(700);
    assert_eq!(norm(&vector(&[3.0 * far, -4.0 * far])), 5.0 * far);
    assert_eq!(norm(&vector(&[])), 0.0);
    assert_eq!(norm(&vector(&[f64::NEG_INFINITY])), f64::INFINITY);
    assert!(norm(&vector(&[f64::INFINITY, f64::NAN])).is_nan());
}

#[test]
fn segments_are_cut_strictly_inside() {
    let cut = Segments::new(0.0, 9.0, 4.0, 2.0);
    assert_eq!(
        (cut.points, cut.slopes),
        (vec![0.0, 4.0, 9.0], vec![-2.0, 2.0])
    );
    for (at, slope) in [
        (0.0, 2.0),
        (-1.0, 2.0),
        (9.0, -2.0),
        (10.0, -2.0),
        (f64::NAN, -2.0),
    ] {
        let whole = Segments::new(0.0, 9.0, at, 2.0);
        assert_eq!((whole.points, whole.slopes), (vec![0.0, 9.0], vec![slope]));
    }
    for slope in [0.0, -1.0, f64::NAN] {
        let flat = Segments::new(0.0, 9.0, 4.0, slope);
        assert_eq!((flat.points, flat.slopes), (vec![0.0, 9.0], vec![0.0]));
    }
}

#[test]
fn constraints_split_the_space() {
    // The second column is twice the first.
    let e = DMatrix::from_column_slice(3, 2, &[1.0, 2.0, 2.0, 2.0, 4.0, 4.0]);
    let constraints = Constraints::new(&e);
    assert_eq!(constraints.pivots, [1]);
    assert_eq!(constraints.range.shape(), (3, 1));
    assert_eq!(constraints.null.shape(), (3, 2));
    assert!((e.transpose() * &constraints.null).amax() < 1e-15);
    let x = constraints.smallest_feasible(&vector(&[9.0, 18.0]));
    assert!((x - vector(&[1.0, 2.0, 2.0])).amax() < 1e-15);
}
