//! The engine's public calls: plain slices in, document 01's numbers out. Inputs are tested first
//! (9, then 10), so that no panic of the source can be reached.
//!
//! Matrices are column after column: `q` and `k` are n × n, `e` is n × m, `a` is n × r.

use crate::CutupError;
use crate::matrix::{DMatrix, DVector, Entries};
use crate::qp::{self, Answer, Bounds, Kinks, Rows};

/// The engine's sizes.
pub const MAX_ORIGINALS: usize = 32;
pub const MAX_EQUALITIES: usize = 8;
pub const MAX_ROWS: usize = 16;

/// A count above the engine's sizes, or a slice whose length its counts don't give.
pub const WRONG_SHAPE: u32 = 9;
/// A NaN bound of a variable or row, where the source panics.
pub const BLANK_BOUND: u32 = 10;

/// An optimum of [`solve_kkt`]'s problem.
#[derive(Debug, Clone, PartialEq)]
pub struct Kkt {
    pub x: Vec<f64>,
    pub multipliers: Vec<f64>,
}

/// An optimum of a bounded problem. The `m + r` multipliers are those of the caller's own
/// equalities and rows, and `passes` counts the active-set passes, the returning one included.
#[derive(Debug, Clone, PartialEq)]
pub struct Solved {
    pub x: Vec<f64>,
    pub multipliers: Vec<f64>,
    pub passes: u64,
}

/// An optimum within a turnover cap, and the raise of every slope that it was accepted at.
#[derive(Debug, Clone, PartialEq)]
pub struct Capped {
    pub solved: Solved,
    pub raise: f64,
}

/// `minimize ½ xᵀQx − cᵀx subject to Eᵀx = b, lower ≤ x ≤ upper and row_lower ≤ Aᵀx ≤ row_upper`.
#[derive(Debug, Clone, Copy)]
pub struct Problem<'a> {
    pub q: &'a [f64],
    pub c: &'a [f64],
    pub e: &'a [f64],
    pub b: &'a [f64],
    pub lower: &'a [f64],
    pub upper: &'a [f64],
    pub a: &'a [f64],
    pub row_lower: &'a [f64],
    pub row_upper: &'a [f64],
    pub n: usize,
    pub m: usize,
    pub r: usize,
}

impl Problem<'_> {
    /// 9, then 10. `vectors` are the further slices of the call, `n` long each.
    fn judge(&self, vectors: &[&[f64]]) -> Result<(), u32> {
        let Problem { n, m, r, .. } = *self;
        let shaped = n <= MAX_ORIGINALS
            && m <= MAX_EQUALITIES
            && r <= MAX_ROWS
            && self.q.len() == n * n
            && self.c.len() == n
            && self.e.len() == n * m
            && self.b.len() == m
            && self.lower.len() == n
            && self.upper.len() == n
            && self.a.len() == n * r
            && self.row_lower.len() == r
            && self.row_upper.len() == r
            && vectors.iter().all(|v| v.len() == n);
        if !shaped {
            return Err(WRONG_SHAPE);
        }
        let bounds = [self.lower, self.upper, self.row_lower, self.row_upper];
        if bounds.iter().any(|b| b.iter().any(|v| v.is_nan())) {
            return Err(BLANK_BOUND);
        }
        Ok(())
    }

    fn parts(&self) -> Parts {
        let Problem { n, m, r, .. } = *self;
        Parts {
            q: DMatrix::from_column_slice(n, n, self.q),
            c: DVector::from_slice(self.c),
            e: DMatrix::from_column_slice(n, m, self.e),
            b: DVector::from_slice(self.b),
            bounds: Bounds {
                lower: DVector::from_slice(self.lower),
                upper: DVector::from_slice(self.upper),
                rows: Rows {
                    a: DMatrix::from_column_slice(n, r, self.a),
                    lower: DVector::from_slice(self.row_lower),
                    upper: DVector::from_slice(self.row_upper),
                },
            },
        }
    }
}

/// A [`Problem`] as `qp.rs` takes it.
struct Parts {
    q: DMatrix<f64>,
    c: DVector<f64>,
    e: DMatrix<f64>,
    b: DVector<f64>,
    bounds: Bounds,
}

fn kinks(at: &[f64], slopes: &[f64]) -> Kinks {
    Kinks {
        at: DVector::from_slice(at),
        slopes: DVector::from_slice(slopes),
    }
}

fn solved(answer: Answer) -> Solved {
    Solved {
        x: answer.x.entries().to_vec(),
        multipliers: answer.multipliers.entries().to_vec(),
        passes: answer.passes as u64,
    }
}

/// The optimum of `½ xᵀKx − cᵀx subject to Eᵀx = b`, or `None` if it has none.
pub fn solve_kkt(
    k: &[f64],
    c: &[f64],
    e: &[f64],
    b: &[f64],
    n: usize,
    m: usize,
) -> Result<Option<Kkt>, u32> {
    let shaped = n <= MAX_ORIGINALS
        && m <= MAX_EQUALITIES
        && k.len() == n * n
        && c.len() == n
        && e.len() == n * m
        && b.len() == m;
    if !shaped {
        return Err(WRONG_SHAPE);
    }
    let solution = qp::solve_kkt(
        &DMatrix::from_column_slice(n, n, k),
        &DVector::from_slice(c),
        &DMatrix::from_column_slice(n, m, e),
        &DVector::from_slice(b),
    )
    .map_err(CutupError::number)?;
    Ok(solution.map(|(x, multipliers)| Kkt {
        x: x.entries().to_vec(),
        multipliers: multipliers.entries().to_vec(),
    }))
}

/// The optimum of `p` from `start`.
pub fn solve_bounded(p: &Problem, start: &[f64]) -> Result<Solved, u32> {
    p.judge(&[start])?;
    let Parts { q, c, e, b, bounds } = p.parts();
    qp::solve_bounded(&q, &c, &e, &b, &bounds, DVector::from_slice(start))
        .map(solved)
        .map_err(CutupError::number)
}

/// The optimum of `p` with `Σᵢ slopesᵢ|xᵢ − atᵢ|` added to its objective, from `start`.
pub fn solve_piecewise(
    p: &Problem,
    at: &[f64],
    slopes: &[f64],
    start: &[f64],
) -> Result<Solved, u32> {
    p.judge(&[at, slopes, start])?;
    let Parts { q, c, e, b, bounds } = p.parts();
    let start = DVector::from_slice(start);
    qp::solve_piecewise(&q, &c, &e, &b, &bounds, &kinks(at, slopes), start)
        .map(solved)
        .map_err(CutupError::number)
}

/// [`solve_piecewise`] with `Σᵢ|xᵢ − atᵢ|` at most `cap`, by a raise of every slope.
pub fn solve_turnover_capped(
    p: &Problem,
    at: &[f64],
    slopes: &[f64],
    start: &[f64],
    cap: f64,
) -> Result<Capped, u32> {
    p.judge(&[at, slopes, start])?;
    let Parts { q, c, e, b, bounds } = p.parts();
    let start = DVector::from_slice(start);
    qp::solve_turnover_capped(&q, &c, &e, &b, &bounds, (&kinks(at, slopes), cap), start)
        .map(|(answer, raise)| Capped {
            solved: solved(answer),
            raise,
        })
        .map_err(CutupError::number)
}
