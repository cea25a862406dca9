//! The engine's calls on problems worked by hand, and every refusal with the order of judging.

use reference::engine::{
    Problem, Solved, solve_bounded, solve_kkt, solve_piecewise, solve_turnover_capped,
};

const INF: f64 = f64::INFINITY;
const NAN: f64 = f64::NAN;

/// A problem of one variable with no equalities and no rows.
fn one<'a>(q: &'a [f64], c: &'a [f64], lower: &'a [f64], upper: &'a [f64]) -> Problem<'a> {
    Problem {
        q,
        c,
        e: &[],
        b: &[],
        lower,
        upper,
        a: &[],
        row_lower: &[],
        row_upper: &[],
        n: 1,
        m: 0,
        r: 0,
    }
}

/// `½|x|² − 3x₁ − 3x₂` with no bounds.
const PAIR: Problem = Problem {
    q: &[1.0, 0.0, 0.0, 1.0],
    c: &[3.0, 3.0],
    e: &[],
    b: &[],
    lower: &[-INF, -INF],
    upper: &[INF, INF],
    a: &[],
    row_lower: &[],
    row_upper: &[],
    n: 2,
    m: 0,
    r: 0,
};

fn parts(solved: Solved) -> (Vec<f64>, Vec<f64>, u64) {
    (solved.x, solved.multipliers, solved.passes)
}

/// The refusal of each of the three calls that take bounds.
fn refusals(p: &Problem, start: &[f64]) -> [Option<u32>; 3] {
    let zeros = vec![0.0; start.len()];
    [
        solve_bounded(p, start).err(),
        solve_piecewise(p, &zeros, &zeros, start).err(),
        solve_turnover_capped(p, &zeros, &zeros, start, INF).err(),
    ]
}

#[test]
fn kkt_by_hand() {
    // Kx + Eλ = c: 2 + λ = 0.
    let solved = solve_kkt(
        &[2.0, 0.0, 0.0, 2.0],
        &[0.0, 0.0],
        &[1.0, 1.0],
        &[2.0],
        2,
        1,
    );
    let kkt = solved.unwrap().unwrap();
    assert!(kkt.x.iter().all(|x| (x - 1.0).abs() < 1e-15));
    assert!((kkt.multipliers[0] + 2.0).abs() < 1e-14);
    // A constraint in other units has the multiplier in them.
    let solved = solve_kkt(
        &[2.0, 0.0, 0.0, 2.0],
        &[0.0, 0.0],
        &[4.0, 4.0],
        &[8.0],
        2,
        1,
    );
    assert!((solved.unwrap().unwrap().multipliers[0] + 0.5).abs() < 1e-15);
}

#[test]
fn kkt_without_an_optimum() {
    // Inconsistent equalities, and a linear objective.
    let twice = solve_kkt(&[1.0], &[0.0], &[1.0, 1.0], &[1.0, 2.0], 1, 2);
    assert_eq!(twice, Ok(None));
    assert_eq!(solve_kkt(&[0.0], &[1.0], &[], &[], 1, 0), Ok(None));
}

#[test]
fn kkt_refusals() {
    assert_eq!(solve_kkt(&[NAN], &[1.0], &[], &[], 1, 0), Err(11));
    assert_eq!(solve_kkt(&[1.0], &[INF], &[], &[], 1, 0), Err(11));
    assert_eq!(solve_kkt(&[-1.0], &[1.0], &[], &[], 1, 0), Err(12));
    assert_eq!(solve_kkt(&[], &[], &[], &[], 0, 0), Err(12));
    assert_eq!(solve_kkt(&[], &[], &[], &[1.0], 0, 1), Err(12));
    assert_eq!(solve_kkt(&[1.0], &[1.0], &[1.0], &[], 1, 1), Err(9));
    assert_eq!(solve_kkt(&[1.0, 2.0], &[1.0], &[], &[], 1, 0), Err(9));
    let (k, c) = (vec![0.0; 33 * 33], vec![0.0; 33]);
    assert_eq!(solve_kkt(&k, &c, &[], &[], 33, 0), Err(9));
    assert_eq!(
        solve_kkt(&[1.0], &[1.0], &[0.0; 9], &[0.0; 9], 1, 9),
        Err(9)
    );
    assert_eq!(
        solve_kkt(&[], &[], &[], &[], usize::MAX, usize::MAX),
        Err(9)
    );
}

#[test]
fn bounded_by_hand() {
    // Inside the bounds: one pass.
    let p = one(&[1.0], &[3.0], &[0.0], &[9.0]);
    assert_eq!(
        solve_bounded(&p, &[1.0]).map(parts),
        Ok((vec![3.0], vec![], 1))
    );
    // Both variables reach 2 where the row x₁ + x₂ ≤ 4 holds them: 2 + λ = 3.
    let rows = Problem {
        a: &[1.0, 1.0],
        row_lower: &[-INF],
        row_upper: &[4.0],
        r: 1,
        ..PAIR
    };
    let (x, multipliers, passes) = parts(solve_bounded(&rows, &[0.0, 0.0]).unwrap());
    assert!(x.iter().all(|x| (x - 2.0).abs() < 1e-14));
    assert!((multipliers[0] - 1.0).abs() < 1e-14);
    assert_eq!(passes, 2);
    // An equality and a bound: x₁ is held at 1, so x₂ is 3, and 3 + λ = 3.
    let held = Problem {
        e: &[1.0, 1.0],
        b: &[4.0],
        m: 1,
        upper: &[1.0, INF],
        ..PAIR
    };
    let (x, multipliers, passes) = parts(solve_bounded(&held, &[0.0, 4.0]).unwrap());
    assert_eq!(x, [1.0, 3.0]);
    assert!(multipliers[0].abs() < 1e-14);
    assert_eq!(passes, 2);
}

#[test]
fn piecewise_by_hand() {
    // ½x² − 3x + 2|x − 1|: at the kink the slope is 1 − 3 ± 2, so it stays.
    let p = one(&[1.0], &[3.0], &[0.0], &[9.0]);
    let kinked = solve_piecewise(&p, &[1.0], &[2.5], &[0.5]);
    assert_eq!(
        kinked.err(),
        Some(14),
        "every variable is held at the best point"
    );
    // A weaker slope is overcome: x − 3 + 1 = 0.
    let (x, _, passes) = parts(solve_piecewise(&p, &[1.0], &[1.0], &[1.5]).unwrap());
    assert_eq!((x, passes), (vec![2.0], 1));
    // No slopes at all is the bounded call.
    let bounded = solve_bounded(&p, &[4.0]);
    assert_eq!(solve_piecewise(&p, &[4.0], &[0.0], &[4.0]), bounded);
}

#[test]
fn capped_by_hand() {
    // Document 01's known block: 50 is as far as the cap lets it, where the slope is 70 − 50.
    let p = one(&[1.0], &[70.0], &[0.0], &[100.0]);
    let capped = solve_turnover_capped(&p, &[40.0], &[0.0], &[0.0], 10.0).unwrap();
    assert_eq!(parts(capped.solved), (vec![50.0], vec![], 2));
    assert_eq!(capped.raise, 20.0);
    // A cap that doesn't bind leaves the slopes alone.
    let loose = solve_turnover_capped(&p, &[40.0], &[0.0], &[0.0], 30.0).unwrap();
    assert_eq!((loose.solved.x, loose.raise), (vec![70.0], 0.0));
    // One that can't be kept.
    let fixed = one(&[1.0], &[70.0], &[50.0], &[50.0]);
    let cap = |cap| solve_turnover_capped(&fixed, &[40.0], &[0.0], &[50.0], cap);
    assert_eq!(cap(9.0).err(), Some(14));
    assert_eq!(cap(10.0).unwrap().solved.passes, 1);
    assert_eq!(cap(NAN).err(), Some(14));
}

#[test]
fn unbounded_is_13_but_not_under_a_cap() {
    let p = one(&[0.0], &[1.0], &[0.0], &[INF]);
    assert_eq!(solve_bounded(&p, &[1.0]).err(), Some(13));
    assert_eq!(solve_piecewise(&p, &[1.0], &[0.5], &[2.0]).err(), Some(13));
    // Under a raise of 1 the slope balances the pull, and x stays at its kink.
    let capped = solve_turnover_capped(&p, &[1.0], &[0.0], &[1.0], 5.0).unwrap();
    assert_eq!((capped.solved.x, capped.raise), (vec![1.0], 1.0));
}

#[test]
fn a_best_point_that_holds_every_variable_is_14() {
    let p = one(&[1.0], &[10.0], &[0.0], &[5.0]);
    assert_eq!(refusals(&p, &[2.0]), [Some(14); 3]);
}

#[test]
fn wrong_shapes_are_9_before_10() {
    let blank = one(&[1.0], &[1.0], &[NAN], &[1.0]);
    assert_eq!(refusals(&blank, &[0.0]), [Some(10); 3]);
    assert_eq!(refusals(&blank, &[0.0, 0.0]), [Some(9); 3]);
    let wrong = [
        Problem { n: 2, ..blank },
        Problem { m: 1, ..blank },
        Problem { r: 1, ..blank },
        Problem { q: &[], ..blank },
        Problem { c: &[], ..blank },
        Problem { e: &[1.0], ..blank },
        Problem { b: &[1.0], ..blank },
        Problem {
            lower: &[NAN, 0.0],
            ..blank
        },
        Problem {
            upper: &[],
            ..blank
        },
        Problem { a: &[1.0], ..blank },
        Problem {
            row_lower: &[NAN],
            ..blank
        },
        Problem {
            row_upper: &[NAN],
            ..blank
        },
        Problem {
            n: usize::MAX,
            ..blank
        },
    ];
    for p in wrong {
        assert_eq!(refusals(&p, &[0.0]), [Some(9); 3]);
    }
    let p = one(&[1.0], &[1.0], &[0.0], &[1.0]);
    assert_eq!(solve_piecewise(&p, &[], &[0.0], &[0.0]).err(), Some(9));
    assert_eq!(solve_piecewise(&p, &[0.0], &[], &[0.0]).err(), Some(9));
}

#[test]
fn counts_above_the_engine_sizes_are_9() {
    let zeros = [0.0; 33 * 33];
    let sized = |n: usize, m: usize, r: usize| {
        let p = Problem {
            q: &zeros[..n * n],
            c: &zeros[..n],
            e: &zeros[..n * m],
            b: &zeros[..m],
            lower: &zeros[..n],
            upper: &zeros[..n],
            a: &zeros[..n * r],
            row_lower: &zeros[..r],
            row_upper: &zeros[..r],
            n,
            m,
            r,
        };
        solve_bounded(&p, &zeros[..n]).err()
    };
    assert_eq!(sized(32, 8, 16), None);
    assert_eq!(sized(33, 0, 0), Some(9));
    assert_eq!(sized(1, 9, 0), Some(9));
    assert_eq!(sized(1, 0, 17), Some(9));
}

#[test]
fn each_blank_bound_is_10() {
    let p = one(&[1.0], &[1.0], &[0.0], &[1.0]);
    let rows = Problem {
        a: &[1.0],
        row_lower: &[0.0],
        row_upper: &[1.0],
        r: 1,
        ..p
    };
    let blank = [
        Problem { lower: &[NAN], ..p },
        Problem { upper: &[NAN], ..p },
        Problem {
            row_lower: &[NAN],
            ..rows
        },
        Problem {
            row_upper: &[NAN],
            ..rows
        },
    ];
    for p in blank {
        assert_eq!(refusals(&p, &[0.5]), [Some(10); 3]);
    }
}

#[test]
fn nan_elsewhere_is_not_10() {
    let p = one(&[1.0], &[0.5], &[0.0], &[1.0]);
    assert_eq!(solve_bounded(&p, &[NAN]).err(), Some(11));
    assert_eq!(
        solve_bounded(&Problem { c: &[NAN], ..p }, &[0.5]).err(),
        Some(11)
    );
    assert_eq!(
        solve_bounded(&Problem { q: &[NAN], ..p }, &[0.5]).err(),
        Some(11)
    );
    // A NaN kink or slope is no kink.
    let plain = solve_bounded(&p, &[0.25]).unwrap();
    assert_eq!(
        solve_piecewise(&p, &[NAN], &[0.0], &[0.25]),
        Ok(plain.clone())
    );
    assert_eq!(solve_piecewise(&p, &[0.5], &[NAN], &[0.25]), Ok(plain));
    let equality = Problem {
        e: &[NAN],
        b: &[1.0],
        m: 1,
        ..p
    };
    assert_eq!(solve_bounded(&equality, &[0.5]).err(), Some(12));
}

#[test]
fn singular_is_12() {
    let missed = Problem {
        e: &[1.0],
        b: &[6.0],
        m: 1,
        ..one(&[1.0], &[1.0], &[5.0], &[5.0])
    };
    assert_eq!(refusals(&missed, &[5.0]), [Some(12); 3]);
}

#[test]
fn crossed_and_equal_bounds_fix_at_the_lower() {
    for (lower, upper, x) in [
        (5.0, 5.0, 5.0),
        (6.0, 5.0, 6.0),
        (INF, INF, INF),
        (-0.0, 0.0, -0.0),
    ] {
        let (lower, upper) = ([lower], [upper]);
        let p = one(&[1.0], &[1.0], &lower, &upper);
        let solved = solve_bounded(&p, &[0.0]).unwrap();
        assert_eq!(solved.x[0].to_bits(), f64::to_bits(x));
        assert_eq!(solved.passes, 1);
    }
    // Infinities of the wrong side fix there too.
    let p = one(&[1.0], &[1.0], &[INF], &[-INF]);
    assert_eq!(solve_bounded(&p, &[0.0]).unwrap().x, [INF]);
    let p = one(&[1.0], &[1.0], &[-INF], &[-INF]);
    assert_eq!(solve_bounded(&p, &[0.0]).unwrap().x, [-INF]);
}

#[test]
fn where_all_are_fixed_the_multipliers_are_zeros() {
    let p = Problem {
        e: &[1.0],
        b: &[5.0],
        m: 1,
        a: &[1.0],
        row_lower: &[0.0],
        row_upper: &[9.0],
        r: 1,
        ..one(&[1.0], &[1.0], &[5.0], &[5.0])
    };
    assert_eq!(
        solve_bounded(&p, &[5.0]).map(parts),
        Ok((vec![5.0], vec![0.0, 0.0], 1))
    );
}

#[test]
fn no_variables() {
    let none = Problem {
        q: &[],
        c: &[],
        lower: &[],
        upper: &[],
        n: 0,
        ..PAIR
    };
    let (x, multipliers, passes) = parts(solve_bounded(&none, &[]).unwrap());
    assert_eq!((x, multipliers, passes), (vec![], vec![], 1));
    let capped = |cap| solve_turnover_capped(&none, &[], &[], &[], cap);
    assert_eq!(capped(0.0).unwrap().raise, 0.0);
    assert_eq!(capped(-1.0).err(), Some(14));
    // An equality or a row is kept by nothing but 0; a NaN target is passed over.
    let equality = |b| solve_bounded(&Problem { b, m: 1, ..none }, &[]).err();
    assert_eq!(equality(&[0.0]), None);
    assert_eq!(equality(&[1.0]), Some(12));
    assert_eq!(equality(&[INF]), Some(12));
    assert_eq!(equality(&[NAN]), None);
    let row = |row_lower, row_upper| {
        let p = Problem {
            row_lower,
            row_upper,
            r: 1,
            ..none
        };
        solve_bounded(&p, &[]).err()
    };
    assert_eq!(row(&[-1.0], &[0.0]), None);
    assert_eq!(row(&[1.0], &[2.0]), Some(12));
    assert_eq!(row(&[INF], &[INF]), Some(12));
    assert_eq!(row(&[-INF], &[INF]), None);
}
