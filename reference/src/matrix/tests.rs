use super::*;

const NAN: f64 = f64::NAN;

/// The matrix whose rows are given.
fn rows<const N: usize>(rows: &[[f64; N]]) -> DMatrix<f64> {
    DMatrix::from_fn(rows.len(), N, |i, j| rows[i][j])
}

fn vector(entries: &[f64]) -> DVector<f64> {
    DVector::from_slice(entries)
}

fn assert_close(a: &impl Entries, b: &impl Entries) {
    assert_eq!(a.entries().len(), b.entries().len());
    for (a, b) in a.iter().zip(b.iter()) {
        assert!((a - b).abs() <= 1e-14 * (1.0 + b.abs()), "{a} isn't {b}");
    }
}

/// The factor's entries from the diagonal down, 0 above it.
fn lower(factor: &Cholesky<f64, Dyn>) -> DMatrix<f64> {
    let l = factor.l_dirty();
    DMatrix::from_fn(
        l.nrows(),
        l.ncols(),
        |i, j| {
            if i >= j { l[(i, j)] } else { 0.0 }
        },
    )
}

fn factored(a: &DMatrix<f64>) -> Cholesky<f64, Dyn> {
    Cholesky::new(a.clone()).expect("a factor")
}

#[test]
fn sums_start_at_plus_zero() {
    let positive_zero = |v: f64| v == 0.0 && v.is_sign_positive();
    assert!(positive_zero(vector(&[]).sum()));
    assert!(positive_zero(vector(&[-0.0]).sum()));
    assert!(positive_zero(vector(&[-0.0]).dot(&vector(&[1.0]))));
    assert!(positive_zero((rows(&[[-0.0]]) * vector(&[1.0]))[0]));
    assert!(positive_zero(DMatrix::zeros(0, 0).trace()));
    assert!(positive_zero(vector(&[-0.0]).norm()));
}

#[test]
fn sums_rise_in_index() {
    let terms = vector(&[1e16, 1.0, -1e16]);
    assert_eq!(terms.sum(), 0.0);
    assert_eq!(terms.dot(&vector(&[1.0; 3])), 0.0);
    let reversed = vector(&[-1e16, 1e16, 1.0]);
    assert_eq!(reversed.sum(), 1.0);
    assert_eq!((rows(&[[-1e16, 1e16, 1.0]]) * vector(&[1.0; 3]))[0], 1.0);
}

#[test]
fn a_sum_taken_off_is_formed_first() {
    // 1 − (1e16 − 1e16) is 1, where 1 − 1e16 + 1e16 is 0.
    let left = vector(&[1.0]) - rows(&[[1e16, -1e16]]) * vector(&[1.0, 1.0]);
    assert_eq!(left[0], 1.0);
}

#[test]
fn amax_passes_over_nan() {
    assert_eq!(vector(&[]).amax(), 0.0);
    assert_eq!(vector(&[NAN, NAN]).amax(), 0.0);
    assert_eq!(vector(&[1.0, NAN, -3.0, 2.0]).amax(), 3.0);
    assert_eq!(vector(&[NAN, f64::NEG_INFINITY]).amax(), f64::INFINITY);
    assert!(vector(&[-0.0]).amax().is_sign_positive());
}

#[test]
fn norm_is_the_root_of_the_sum_of_squares() {
    assert_eq!(vector(&[3.0, -4.0]).norm(), 5.0);
    assert_eq!(rows(&[[1.0, 1.0], [1.0, 1.0]]).norm(), 2.0);
    assert_eq!(vector(&[1e200]).norm(), f64::INFINITY);
    assert_eq!(vector(&[1e-200]).norm(), 0.0);
    assert!(vector(&[NAN]).norm().is_nan());
}

#[test]
fn nans_are_equal_and_above_infinity() {
    assert_eq!(total_cmp(&NAN, &-NAN), Ordering::Equal);
    assert_eq!(total_cmp(&-NAN, &f64::INFINITY), Ordering::Greater);
    assert_eq!(total_cmp(&f64::NEG_INFINITY, &-NAN), Ordering::Less);
    assert_eq!(total_cmp(&-0.0, &0.0), Ordering::Less);
    assert_eq!(total_cmp(&2.0, &1.0), Ordering::Greater);
    let last_of_equals = [NAN, -NAN]
        .iter()
        .enumerate()
        .max_by(|a, b| total_cmp(a.1, b.1));
    assert_eq!(last_of_equals.map(|(i, _)| i), Some(1));
    let first_of_equals = [NAN, -NAN]
        .iter()
        .enumerate()
        .min_by(|a, b| total_cmp(a.1, b.1));
    assert_eq!(first_of_equals.map(|(i, _)| i), Some(0));
}

#[test]
fn cholesky_of_two_and_three() {
    let two = factored(&rows(&[[4.0, 2.0], [2.0, 10.0]]));
    assert_eq!(lower(&two), rows(&[[2.0, 0.0], [1.0, 3.0]]));
    let three = factored(&rows(&[[4.0, NAN, NAN], [2.0, 10.0, NAN], [2.0, 7.0, 6.0]]));
    let expected = rows(&[[2.0, 0.0, 0.0], [1.0, 3.0, 0.0], [1.0, 2.0, 1.0]]);
    assert_eq!(lower(&three), expected);
    assert_eq!(
        three.solve(&vector(&[8.0, 19.0, 15.0])).entries(),
        [1.0, 1.0, 1.0]
    );
}

#[test]
fn cholesky_fails_under_the_root() {
    for value in [0.0, -0.0, -1.0, NAN, f64::NEG_INFINITY] {
        assert!(Cholesky::new(rows(&[[value]])).is_none());
    }
    assert!(Cholesky::new(rows(&[[1.0, 1.0], [1.0, 1.0]])).is_none());
    assert!(Cholesky::new(rows(&[[1.0, 0.0], [NAN, 4.0]])).is_none());
    assert!(Cholesky::new(rows(&[[f64::INFINITY]])).is_some());
    assert_eq!(factored(&DMatrix::zeros(0, 0)).l_dirty().nrows(), 0);
}

#[test]
fn triangular_systems() {
    let l = rows(&[[2.0, NAN], [1.0, 4.0]]);
    assert_eq!(
        l.solve_lower_triangular(&vector(&[6.0, 11.0])),
        Some(vector(&[3.0, 2.0]))
    );
    assert_eq!(
        l.tr_solve_lower_triangular(&vector(&[8.0, 12.0])),
        Some(vector(&[2.5, 3.0]))
    );
    let two_columns = rows(&[[6.0, 2.0], [11.0, 9.0]]);
    let solved = rows(&[[3.0, 1.0], [2.0, 2.0]]);
    assert_eq!(l.solve_lower_triangular(&two_columns), Some(solved));
}

#[test]
fn a_zero_diagonal_gives_nothing() {
    for zero in [0.0, -0.0] {
        let l = rows(&[[1.0, 0.0], [1.0, zero]]);
        assert!(l.solve_lower_triangular(&vector(&[1.0, 1.0])).is_none());
        assert!(l.tr_solve_lower_triangular(&vector(&[1.0, 1.0])).is_none());
        assert_eq!(
            l.solve_lower_triangular(&DMatrix::zeros(2, 0)),
            Some(DMatrix::zeros(2, 0))
        );
    }
    let l = rows(&[[NAN]]);
    assert!(
        l.solve_lower_triangular(&vector(&[1.0]))
            .is_some_and(|x| x[0].is_nan())
    );
}

#[test]
fn back_substitution_sums_in_rising_index() {
    let mut l = DMatrix::identity(4, 4);
    for (k, entry) in [-1e16, 1e16, 1.0].into_iter().enumerate() {
        l[(k + 1, 0)] = entry;
    }
    let x = l
        .tr_solve_lower_triangular(&vector(&[1.0; 4]))
        .expect("a solution");
    assert_eq!(x[0], 0.0);
}

#[test]
fn leaving_by_hand() {
    let l = rows(&[[1.0, 0.0, 0.0], [3.0, 4.0, 0.0], [4.0, 2.0, 1.5]]);
    let left = Cholesky::from_factor(l.clone()).remove_column(0);
    assert_eq!(lower(&left), rows(&[[5.0, 0.0], [4.0, 2.5]]));
    let last = Cholesky::from_factor(l).remove_column(2);
    assert_eq!(lower(&last), rows(&[[1.0, 0.0], [3.0, 4.0]]));
}

#[test]
fn joining_by_hand() {
    let l = rows(&[[2.0, 0.0], [1.0, 3.0]]);
    let joined = Cholesky::from_factor(l).insert_column(2, vector(&[2.0, 7.0, 6.0]));
    let expected = rows(&[[2.0, 0.0, 0.0], [1.0, 3.0, 0.0], [1.0, 2.0, 1.0]]);
    assert_eq!(lower(&joined), expected);
    let first = factored(&DMatrix::zeros(0, 0)).insert_column(0, vector(&[9.0]));
    assert_eq!(lower(&first), rows(&[[3.0]]));
    // A block that becomes singular has a NaN or a 0 on its diagonal.
    let singular = factored(&rows(&[[1.0]])).insert_column(1, vector(&[2.0, 1.0]));
    assert!(singular.l_dirty()[(1, 1)].is_nan());
}

#[test]
fn leaving_and_joining_against_fresh_factors() {
    let a = DMatrix::from_fn(5, 5, |i, j| {
        let both = ((i + 1) * (j + 1)) as f64;
        if i == j { 10.0 + both } else { both / 2.0 }
    });
    let whole = factored(&a);
    for position in 0..5 {
        let kept: Vec<usize> = (0..5).filter(|&i| i != position).collect();
        let part = factored(&a.select_rows(&kept).select_columns(&kept));
        assert_close(
            &lower(&whole.clone().remove_column(position)),
            &lower(&part),
        );
        let joined = part.insert_column(position, a.column(position));
        assert_close(&lower(&joined), &lower(&whole));
    }
}

#[test]
fn what_is_above_the_diagonal_never_matters() {
    let a = rows(&[[4.0, 2.0, 2.0], [2.0, 10.0, 7.0], [2.0, 7.0, 6.0]]);
    let clean = Cholesky::from_factor(lower(&factored(&a)));
    let mut soiled = lower(&clean);
    for (i, j) in [(0, 1), (0, 2), (1, 2)] {
        soiled[(i, j)] = NAN;
    }
    let soiled = Cholesky::from_factor(soiled);
    let right = vector(&[1.0, 2.0, 3.0]);
    assert_eq!(clean.solve(&right), soiled.solve(&right));
    for position in 0..3 {
        let [a, b] = [&clean, &soiled].map(|l| lower(&l.clone().remove_column(position)));
        assert_eq!(a, b);
    }
    for position in 0..4 {
        let column = vector(&[1.0, 2.0, 3.0, 40.0]);
        let [a, b] =
            [&clean, &soiled].map(|l| lower(&l.clone().insert_column(position, column.clone())));
        // By their bits: a diagonal may be NaN in both.
        assert!(
            a.iter()
                .zip(b.iter())
                .all(|(a, b)| a.to_bits() == b.to_bits())
        );
    }
}

#[test]
fn qr_of_two_by_two() {
    // (3, 4) has norm 5 and goes to (−5, 0): v = (3 + 5, 4).
    let qr = rows(&[[3.0, 1.0], [4.0, 2.0]]).qr();
    let packed = qr.packed();
    assert_eq!((packed[(0, 0)], packed[(1, 0)]), (8.0, 4.0));
    assert_eq!(packed[(0, 1)], 1.0 - 8.0 * 0.4);
    let entry: f64 = 2.0 - 4.0 * 0.4;
    assert_eq!(packed[(1, 1)], entry + entry.abs());
    let mut column = rows(&[[3.0], [4.0]]);
    qr.q_tr_mul(&mut column);
    assert_close(&column, &rows(&[[-5.0], [0.0]]));
}

#[test]
fn a_reflection_has_the_sign_opposite_to_the_leading_entry() {
    let leading = |x: [f64; 2]| rows(&[[x[0]], [x[1]]]).qr().packed()[(0, 0)];
    assert_eq!(leading([3.0, 4.0]), 8.0);
    assert_eq!(leading([-3.0, 4.0]), -8.0);
    assert_eq!(leading([0.0, 5.0]), 5.0);
    assert_eq!(leading([-0.0, 5.0]), 5.0);
}

#[test]
fn a_zero_column_makes_no_reflection() {
    let a = rows(&[[0.0, 1.0], [-0.0, 2.0]]);
    let qr = a.clone().qr();
    assert_eq!(qr.packed()[(0, 1)], 1.0);
    let mut right = rows(&[[7.0], [8.0]]);
    qr.q_tr_mul(&mut right);
    // Only the second column's reflection, of the second row.
    assert_eq!(right, rows(&[[7.0], [-8.0]]));
    // A column whose squares are all 0 isn't a zero column: its reflection divides by 0.
    let tiny = rows(&[[1e-200, 1.0], [0.0, 1.0]]).qr();
    assert_eq!(tiny.packed()[(0, 1)], f64::NEG_INFINITY);
}

#[test]
fn qr_of_three_by_two() {
    let a = rows(&[[1.0, 2.0], [2.0, 0.0], [2.0, 1.0]]);
    let qr = a.clone().qr();
    let mut r = a.clone();
    qr.q_tr_mul(&mut r);
    // Norms 3 and √(5 − (4/3)²), and the product (2 + 2) / 3.
    let second = (5.0f64 - 16.0 / 9.0).sqrt();
    assert_close(&r.rows(0, 1), &rows(&[[-3.0, -4.0 / 3.0]]));
    assert!((r[(1, 1)].abs() - second).abs() < 1e-14);
    assert!(r[(1, 0)].abs().max(r[(2, 0)].abs()).max(r[(2, 1)].abs()) < 1e-15);
    let mut q_transpose = DMatrix::identity(3, 3);
    qr.q_tr_mul(&mut q_transpose);
    assert_close(
        &(&q_transpose * q_transpose.transpose()),
        &DMatrix::identity(3, 3),
    );
}

#[test]
fn no_rows_and_no_columns() {
    let mut flat = DMatrix::zeros(0, 3);
    assert_eq!(flat.column_iter().count(), 3);
    assert_eq!(flat.column_iter_mut().count(), 3);
    assert_eq!(&flat.transpose() * vector(&[]), vector(&[0.0; 3]));
    assert_eq!(DMatrix::zeros(2, 0) * vector(&[]), vector(&[0.0; 2]));
}
