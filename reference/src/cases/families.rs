//! Seeded problems for the four calls of the engine, by family.

use super::engine::{Call, Case};
use super::matrix;
use crate::engine::{MAX_EQUALITIES, MAX_ORIGINALS, MAX_ROWS};
use crate::matrix::SumFromZero;
use crate::rng::Rng;

/// Which values and sizes a generator favours.
#[derive(Debug, Clone, Copy, PartialEq, Eq)]
pub enum Style {
    /// Small sizes, and values that are coded in a byte or three: for the fixed lists.
    Compact,
    /// Every size up to the engine's, and any real values: for runs at scale.
    Wide,
}

/// A family's name and its generator.
type Family = (&'static str, fn(&mut Generator) -> Case);

/// The families of [`Call::Kkt`] come first.
const FAMILIES: [Family; 26] = [
    ("conditioned", Generator::conditioned),
    ("singular", Generator::singular),
    ("nearly singular", Generator::nearly_singular),
    ("dependent", Generator::dependent),
    ("inconsistent", Generator::inconsistent),
    ("no variables", Generator::no_variables),
    ("huge", Generator::huge),
    ("tiny", Generator::tiny),
    ("mixed scales", Generator::mixed_scales),
    ("not finite", Generator::not_finite),
    ("indefinite", Generator::indefinite),
    ("linear", Generator::linear),
    ("blocks", Generator::blocks),
    ("limits", Generator::limits),
    ("wrong shape", Generator::wrong_shape),
    ("equal bounds", Generator::equal_bounds),
    ("infinite bounds", Generator::infinite_bounds),
    ("signed zeros", Generator::signed_zeros),
    ("blank bound", Generator::blank_bound),
    ("infeasible start", Generator::infeasible_start),
    ("boundary start", Generator::boundary_start),
    ("kinks at bounds", Generator::kinks_at_bounds),
    ("ties", Generator::ties),
    ("best at a corner", Generator::corner),
    ("unbounded", Generator::unbounded),
    ("joining", Generator::joining),
];

const KKT_FAMILIES: usize = 15;

/// Makes cases of a call from a seed.
pub struct Generator {
    rng: Rng,
    style: Style,
    call: Call,
}

impl Generator {
    /// Case `number` of the run of `seed`.
    pub fn case(style: Style, call: Call, seed: u64, number: u64) -> Case {
        let mut generator = Generator {
            rng: Rng::of_case(seed, number),
            style,
            call,
        };
        let families = match call {
            Call::Kkt => &FAMILIES[..KKT_FAMILIES],
            _ => &FAMILIES[..],
        };
        let (family, make) = families[number as usize % families.len()];
        let mut case = make(&mut generator);
        case.family = family;
        case
    }

    /// A size from `least` to `limit`, in the compact style mostly up to `usual`.
    fn size(&mut self, least: usize, usual: usize, limit: usize) -> usize {
        let most = match self.style {
            Style::Compact if self.rng.chance(85) => usual,
            Style::Compact if self.rng.chance(80) => (2 * usual).min(limit),
            _ => limit,
        };
        least + self.rng.below(most + 1 - least)
    }

    /// How many variables, at least one, equalities and rows.
    fn sizes(&mut self) -> (usize, usize, usize) {
        let n = self.size(1, 6, MAX_ORIGINALS);
        let m = match self.rng.chance(30) {
            true => 0,
            false => self.size(0, 2, MAX_EQUALITIES),
        };
        let r = match self.rng.chance(30) {
            true => 0,
            false => self.size(0, 2, MAX_ROWS),
        };
        (n, m, r)
    }

    /// A number within ±`most`.
    fn value(&mut self, most: i64) -> f64 {
        match self.style {
            Style::Compact if self.rng.chance(93) => self.rng.int(-most, most) as f64,
            Style::Compact => self.rng.int(-256 * most, 256 * most) as f64 / 256.0,
            Style::Wide if self.rng.chance(30) => self.rng.int(-most, most) as f64,
            Style::Wide => (2.0 * self.rng.unit() - 1.0) * most as f64,
        }
    }

    fn values(&mut self, count: usize, most: i64) -> Vec<f64> {
        (0..count).map(|_| self.value(most)).collect()
    }

    /// Columns of `n` coefficients, few of them not 0.
    fn columns(&mut self, n: usize, count: usize) -> Vec<f64> {
        let mut columns = vec![0.0; n * count];
        for column in columns.chunks_exact_mut(n.max(1)) {
            let terms = match self.rng.chance(80) {
                true => 1 + self.rng.below(4),
                false => n,
            };
            for _ in 0..terms {
                column[self.rng.below(n)] = self.value(3);
            }
        }
        columns
    }

    /// `Bᵀ B` for `rank` random rows `B`.
    fn gram(&mut self, n: usize, rank: usize) -> Vec<f64> {
        let rows: Vec<Vec<f64>> = (0..rank).map(|_| self.columns(n, 1)).collect();
        matrix(n, |i, j| {
            rows.iter().map(|row| row[i] * row[j]).sum_from_zero()
        })
    }

    /// A problem round a point that keeps everything, which it starts from.
    fn problem(&mut self, n: usize, m: usize, r: usize, rank: usize, ridge: f64) -> Case {
        let x = self.values(n, 9);
        let mut q = self.gram(n, rank);
        for i in 0..n {
            q[i + i * n] += ridge;
        }
        let e = self.columns(n, m);
        let a = self.columns(n, r);
        let sums = times(&a, &x, r);
        let most = self.rng.pick(&[0, 5, 30, 90]);
        let c = self.values(n, most);
        let width = self.rng.pick(&[1, 4, 12]);
        let mut off = |v: &f64, sign: f64| v + sign * self.value(width).abs();
        let lower = x.iter().map(|v| off(v, -1.0)).collect();
        let upper = x.iter().map(|v| off(v, 1.0)).collect();
        let row_lower = sums.iter().map(|v| off(v, -1.0)).collect();
        let row_upper = sums.iter().map(|v| off(v, 1.0)).collect();
        let at = match self.rng.chance(60) {
            true => x.clone(),
            false => x.iter().map(|v| v + self.value(3)).collect(),
        };
        let slopes = (0..n)
            .map(|_| match self.rng.chance(40) {
                true => 0.0,
                false => self.value(20).abs(),
            })
            .collect();
        Case {
            family: "",
            n,
            m,
            r,
            q,
            c,
            b: times(&e, &x, m),
            e,
            lower,
            upper,
            a,
            row_lower,
            row_upper,
            at,
            slopes,
            start: x,
            cap: self.value(2 * n as i64 + 1).abs(),
        }
    }

    fn conditioned(&mut self) -> Case {
        let (n, m, r) = self.sizes();
        let ridge = 1.0 + self.value(4).abs();
        self.problem(n, m, r, n, ridge)
    }

    fn singular(&mut self) -> Case {
        let (n, m, r) = self.sizes();
        let rank = self.rng.below(n);
        let mut case = self.problem(n, m, r, rank, 0.0);
        if self.rng.chance(50) {
            let x = self.values(n, 5);
            case.c = times(&case.q, &x, n);
        }
        case
    }

    fn nearly_singular(&mut self) -> Case {
        let (n, m, r) = self.sizes();
        let rank = self.rng.below(n);
        let power = self.rng.int(10, 60) as i32;
        let mut case = self.problem(n, m, r, rank, 2f64.powi(-power));
        if self.rng.chance(60) {
            let x = self.values(n, 5);
            case.c = times(&case.q, &x, n);
        }
        case
    }

    /// A conditioned problem with an equality that is a combination of the others.
    fn dependent(&mut self) -> Case {
        let n = self.size(1, 6, MAX_ORIGINALS);
        let m = self.size(1, 3, MAX_EQUALITIES);
        let r = self.size(0, 2, MAX_ROWS);
        let mut case = self.problem(n, m, r, n, 1.0);
        let target = self.rng.below(m);
        let (from, with) = (self.rng.below(m), self.rng.below(m));
        let (s, t) = (self.rng.int(-2, 2) as f64, self.rng.int(-2, 2) as f64);
        for i in 0..n {
            case.e[i + target * n] = s * case.e[i + from * n] + t * case.e[i + with * n];
        }
        case.b = times(&case.e, &case.start, m);
        case
    }

    fn inconsistent(&mut self) -> Case {
        let mut case = self.dependent();
        let j = self.rng.below(case.m);
        case.b[j] += 1.0 + self.value(5).abs();
        case
    }

    fn no_variables(&mut self) -> Case {
        let m = self.size(0, 3, MAX_EQUALITIES);
        let r = self.size(0, 3, MAX_ROWS);
        let mut case = self.problem(0, m, r, 0, 0.0);
        if self.rng.chance(50) {
            case.b = self.values(m, 1);
        }
        if self.rng.chance(30) {
            case.row_lower = self.values(r, 1);
        }
        case.cap = self.value(1);
        case
    }

    /// A conditioned problem whose objective, equalities, rows and variables are scaled.
    fn rescaled(&mut self, powers: [i32; 4]) -> Case {
        let mut case = self.conditioned();
        let [objective, equalities, rows, variables] = powers.map(|p| 10f64.powi(p));
        scale(&mut case.q, objective / variables / variables);
        scale(&mut case.c, objective / variables);
        scale(&mut case.slopes, objective / variables);
        scale(&mut case.e, equalities / variables);
        scale(&mut case.b, equalities);
        scale(&mut case.a, rows / variables);
        scale(&mut case.row_lower, rows);
        scale(&mut case.row_upper, rows);
        for slice in [
            &mut case.lower,
            &mut case.upper,
            &mut case.at,
            &mut case.start,
        ] {
            scale(slice, variables);
        }
        case.cap *= variables;
        case
    }

    fn huge(&mut self) -> Case {
        let powers = [0; 4].map(|_| match self.rng.chance(50) {
            true => 0,
            false => self.rng.pick(&[20, 100, 150, 160, 290]),
        });
        self.rescaled(powers)
    }

    fn tiny(&mut self) -> Case {
        let powers = [0; 4].map(|_| match self.rng.chance(50) {
            true => 0,
            false => -self.rng.pick(&[20, 100, 150, 160, 290]),
        });
        self.rescaled(powers)
    }

    /// Each variable in units of its own.
    fn mixed_scales(&mut self) -> Case {
        let mut case = self.conditioned();
        let n = case.n;
        for i in 0..n {
            if self.rng.chance(50) {
                continue;
            }
            let unit = 10f64.powi(self.rng.pick(&[-150, -80, -12, -6, 6, 12, 80, 150]));
            for j in 0..n {
                case.q[i + j * n] /= unit;
                case.q[j + i * n] /= unit;
            }
            for j in 0..case.m {
                case.e[i + j * n] /= unit;
            }
            for j in 0..case.r {
                case.a[i + j * n] /= unit;
            }
            case.c[i] /= unit;
            case.slopes[i] /= unit;
            for slice in [
                &mut case.lower,
                &mut case.upper,
                &mut case.at,
                &mut case.start,
            ] {
                slice[i] *= unit;
            }
        }
        case
    }

    /// A number that isn't finite, or one at the end of the range, in one or two places that
    /// aren't bounds, or an infinite bound.
    fn not_finite(&mut self) -> Case {
        let mut case = match self.rng.chance(70) {
            true => self.conditioned(),
            false => self.singular(),
        };
        for _ in 0..1 + self.rng.below(2) {
            let value = self.rng.pick(&[
                f64::NAN,
                f64::NAN,
                f64::INFINITY,
                f64::NEG_INFINITY,
                f64::MAX,
                5e-324,
            ]);
            let mut slices = case.slices(self.call);
            let place = self.rng.below(slices.len() + 1);
            let Some(slice) = slices.get_mut(place) else {
                case.cap = value;
                continue;
            };
            let bound = self.call != Call::Kkt && [4, 5, 7, 8].contains(&place);
            if slice.is_empty() || (bound && value.is_nan()) {
                continue;
            }
            let at = self.rng.below(slice.len());
            slice[at] = value;
        }
        case
    }

    /// A `Q` with a negative diagonal entry, with negative curvature, or that isn't symmetric.
    fn indefinite(&mut self) -> Case {
        let mut case = self.conditioned();
        let n = case.n;
        let (i, j) = (self.rng.below(n), self.rng.below(n));
        match self.rng.below(3) {
            0 => case.q[i + i * n] = -self.value(5).abs(),
            1 => {
                let far = 3.0 * (case.q[i + i * n] + case.q[j + j * n]);
                case.q[i + j * n] = far;
                case.q[j + i * n] = far;
            }
            _ => case.q[i + j * n] += self.value(9),
        }
        case
    }

    /// No curvature, or only some variables with it.
    fn linear(&mut self) -> Case {
        let (n, m, r) = self.sizes();
        let mut case = self.problem(n, m, r, 0, 0.0);
        for i in 0..n {
            if self.rng.chance(30) {
                case.q[i + i * n] = 1.0 + self.value(3).abs();
            }
            if self.rng.chance(40) {
                case.upper[i] = f64::INFINITY;
            }
            if self.rng.chance(40) {
                case.lower[i] = f64::NEG_INFINITY;
            }
        }
        if self.rng.chance(30) {
            case.c = vec![0.0; n];
        }
        case
    }

    /// As the block service makes them: tempo terms on neighbouring words, anchors, spans of a
    /// least duration, windows round the keys and a cap.
    fn blocks(&mut self) -> Case {
        let n = self.size(1, 8, MAX_ORIGINALS);
        let m = self.size(0, 2, MAX_EQUALITIES);
        let r = self.size(0, 3, MAX_ROWS);
        let gap = match self.style {
            Style::Compact => 12,
            Style::Wide => self.rng.int(12, 8000),
        };
        let room = self.rng.int(1, gap / 2);
        let mut case = Case::empty("");
        (case.n, case.m, case.r) = (n, m, r);
        for i in 0..n as i64 {
            let key = gap * (i + 1) + self.rng.int(-gap / 4, gap / 4);
            let start = key + self.rng.int(-room, room);
            case.at.push(key as f64);
            case.lower
                .push(start.min(key) as f64 - self.rng.int(0, room) as f64);
            case.upper
                .push(start.max(key) as f64 + self.rng.int(0, room) as f64);
            case.start.push(start as f64);
            case.slopes.push(self.rng.int(0, 3 * room) as f64);
        }
        case.q = vec![0.0; n * n];
        case.c = vec![0.0; n];
        for _ in 0..self.size(1, n + 2, 64) {
            let weight = self.rng.int(1, 8) as f64;
            let terms = self.list(n);
            let sum = terms
                .iter()
                .map(|&(i, k)| k * case.start[i])
                .sum_from_zero();
            let target = sum + self.rng.int(-2 * room, 2 * room) as f64;
            for &(i, k) in &terms {
                case.c[i] += weight * target * k;
                for &(j, l) in &terms {
                    case.q[i + j * n] += weight * k * l;
                }
            }
        }
        case.e = self.lists(n, m);
        case.b = times(&case.e, &case.start, m);
        case.a = self.lists(n, r);
        for sum in times(&case.a, &case.start, r) {
            case.row_lower.push(sum - self.rng.int(0, room) as f64);
            case.row_upper.push(sum + self.rng.int(0, 4 * gap) as f64);
        }
        case.cap = self.rng.int(0, room * n as i64) as f64;
        case
    }

    /// Columns that are each a [`Generator::list`].
    fn lists(&mut self, n: usize, count: usize) -> Vec<f64> {
        let mut columns = vec![0.0; n * count];
        for column in columns.chunks_exact_mut(n) {
            for (i, k) in self.list(n) {
                column[i] = k;
            }
        }
        columns
    }

    /// A word, or neighbouring words, with coefficients.
    fn list(&mut self, n: usize) -> Vec<(usize, f64)> {
        let first = self.rng.below(n);
        match self.rng.below(4) {
            0 => vec![(first, 1.0)],
            1 if first + 2 < n => vec![(first, 1.0), (first + 1, -2.0), (first + 2, 1.0)],
            _ if first + 1 < n => vec![(first, -1.0), (first + 1, 1.0)],
            _ => vec![(first, self.rng.int(1, 8) as f64)],
        }
    }

    /// The engine's largest sizes, each of them mostly.
    fn limits(&mut self) -> Case {
        let full = self.style == Style::Wide || self.rng.chance(25);
        let n = if full { MAX_ORIGINALS } else { 16 };
        let m = self.rng.pick(&[0, 4, MAX_EQUALITIES]);
        let r = self.rng.pick(&[0, 5, MAX_ROWS]);
        self.problem(n, m, r, n, 1.0)
    }

    /// A count above the engine's sizes, or a slice whose length its counts don't give. A bound
    /// may be NaN too: the shape is judged first.
    fn wrong_shape(&mut self) -> Case {
        let mut case = match self.rng.below(8) {
            0 => self.problem(MAX_ORIGINALS + 1, 0, 0, 1, 1.0),
            1 => self.problem(2, MAX_EQUALITIES + 1, 1, 2, 1.0),
            2 if self.call != Call::Kkt => self.problem(2, 1, MAX_ROWS + 1, 2, 1.0),
            3 => {
                let mut case = self.conditioned();
                match self.rng.below(3) {
                    0 => case.n += 1,
                    1 if self.call != Call::Kkt => case.r += 1,
                    _ => case.m += 1,
                }
                case
            }
            _ => {
                let mut case = self.conditioned();
                let mut slices = case.slices(self.call);
                let place = self.rng.below(slices.len());
                match slices[place].pop() {
                    Some(last) if self.rng.chance(50) => slices[place].extend([last, 1.0]),
                    Some(_) => {}
                    None => slices[place].push(1.0),
                }
                case
            }
        };
        if self.rng.chance(30) {
            for bound in case.lower.iter_mut().chain(&mut case.row_upper) {
                *bound = f64::NAN;
            }
        }
        case
    }

    /// Some or all variables fixed, by equal bounds or by crossed ones, and rows too.
    fn equal_bounds(&mut self) -> Case {
        let mut case = self.conditioned();
        let percent = self.rng.pick(&[30, 60, 100]);
        for i in 0..case.n {
            if self.rng.chance(percent) {
                let over = if self.rng.chance(85) { 0.0 } else { 1.0 };
                case.lower[i] = case.start[i] + over;
                case.upper[i] = case.start[i];
            }
        }
        for j in 0..case.r {
            if self.rng.chance(50) {
                let over = if self.rng.chance(90) { 0.0 } else { 1.0 };
                case.row_upper[j] = case.row_lower[j] - over;
            }
        }
        case
    }

    /// No bounds on some or all sides, and now and then one of the wrong sign.
    fn infinite_bounds(&mut self) -> Case {
        let mut case = match self.rng.chance(60) {
            true => self.conditioned(),
            false => self.singular(),
        };
        let percent = self.rng.pick(&[40, 100]);
        let wrong = self.rng.chance(10);
        for (bounds, infinity) in [
            (&mut case.lower, f64::NEG_INFINITY),
            (&mut case.upper, f64::INFINITY),
            (&mut case.row_lower, f64::NEG_INFINITY),
            (&mut case.row_upper, f64::INFINITY),
        ] {
            for bound in bounds {
                if self.rng.chance(percent) {
                    *bound = match wrong && self.rng.chance(20) {
                        true => -infinity,
                        false => infinity,
                    };
                }
            }
        }
        case
    }

    /// Zeros of either sign where numbers meet: bounds, kinks, starts and coefficients.
    fn signed_zeros(&mut self) -> Case {
        let mut case = self.conditioned();
        for _ in 0..case.n {
            let i = self.rng.below(case.n);
            let mut zero = || self.rng.pick(&[0.0, -0.0]);
            case.start[i] = zero();
            case.at[i] = zero();
            case.lower[i] = zero();
            case.upper[i] = zero() + case.upper[i].max(0.0);
            if self.rng.chance(30) {
                case.upper[i] = self.rng.pick(&[0.0, -0.0]);
            }
            if self.rng.chance(30) {
                case.lower[i] = -1.0;
            }
            if self.rng.chance(30) {
                case.c[i] = -0.0;
            }
        }
        case.b = times(&case.e, &case.start, case.m);
        for (j, sum) in times(&case.a, &case.start, case.r).into_iter().enumerate() {
            case.row_lower[j] = sum - self.rng.pick(&[0.0, 1.0]);
            case.row_upper[j] = sum + self.rng.pick(&[0.0, 1.0]);
        }
        case
    }

    /// A NaN bound of a variable or a row.
    fn blank_bound(&mut self) -> Case {
        let mut case = self.conditioned();
        let (i, side) = (self.rng.below(case.n + case.r), self.rng.chance(50));
        let bounds = match (i < case.n, side) {
            (true, true) => &mut case.lower,
            (true, false) => &mut case.upper,
            (false, true) => &mut case.row_lower,
            (false, false) => &mut case.row_upper,
        };
        let place = if i < case.n { i } else { i - case.n };
        bounds[place] = f64::NAN;
        case
    }

    /// A start outside the windows, off an equality or outside a row's limits.
    fn infeasible_start(&mut self) -> Case {
        let mut case = self.conditioned();
        for _ in 0..1 + self.rng.below(3) {
            match self.rng.below(4) {
                0 if case.m > 0 => {
                    let j = self.rng.below(case.m);
                    case.b[j] += self.value(3);
                }
                1 if case.r > 0 => {
                    let j = self.rng.below(case.r);
                    let by = self.value(20);
                    case.row_lower[j] += by;
                    case.row_upper[j] += by;
                }
                _ => {
                    let i = self.rng.below(case.n);
                    case.start[i] += self.value(25);
                }
            }
        }
        case
    }

    /// A start at bounds, at kinks and at rows' limits.
    fn boundary_start(&mut self) -> Case {
        let mut case = self.conditioned();
        for i in 0..case.n {
            match self.rng.below(4) {
                0 => case.lower[i] = case.start[i],
                1 => case.upper[i] = case.start[i],
                2 => case.at[i] = case.start[i],
                _ => {}
            }
        }
        for (j, sum) in times(&case.a, &case.start, case.r).into_iter().enumerate() {
            match self.rng.below(3) {
                0 => case.row_lower[j] = sum,
                1 => case.row_upper[j] = sum,
                _ => {}
            }
        }
        case
    }

    /// Kinks at and outside bounds, and slopes that are 0, negative, huge or tiny.
    fn kinks_at_bounds(&mut self) -> Case {
        let mut case = match self.rng.chance(70) {
            true => self.conditioned(),
            false => self.singular(),
        };
        for i in 0..case.n {
            match self.rng.below(6) {
                0 => case.at[i] = case.lower[i],
                1 => case.at[i] = case.upper[i],
                2 => case.at[i] = case.lower[i] - 1.0,
                3 => case.at[i] = case.upper[i] + 1.0,
                4 => case.at[i] = case.start[i],
                _ => {}
            }
            match self.rng.below(10) {
                0 => case.slopes[i] = 0.0,
                1 => case.slopes[i] = -self.value(5).abs(),
                2 => case.slopes[i] = 1e9,
                3 => case.slopes[i] = 1e-9,
                _ => {}
            }
        }
        case
    }

    /// Equal variables, so that ratios and rates tie.
    fn ties(&mut self) -> Case {
        let n = self.size(2, 6, MAX_ORIGINALS);
        let r = self.size(0, 1, MAX_ROWS);
        let d = self.rng.pick(&[1.0, 4.0]);
        let (pull, slope) = (self.value(40), self.value(9).abs());
        let (low, high) = (self.value(4).abs(), self.value(4).abs());
        let m = self.rng.below(2);
        let mut case = self.problem(n, m, r, 0, d);
        case.start = vec![0.0; n];
        case.c = (0..n)
            .map(|_| match self.rng.chance(80) {
                true => pull,
                false => -pull,
            })
            .collect();
        case.e = vec![1.0; n * m];
        case.b = vec![0.0; m];
        case.lower = vec![-low; n];
        case.upper = vec![high; n];
        if self.rng.chance(50) {
            case.lower = vec![0.0; n];
        }
        case.at = vec![self.rng.pick(&[0.0, 1.0, high]); n];
        case.slopes = vec![slope; n];
        case.a = vec![1.0; n * r];
        case.row_lower = vec![-self.value(9).abs(); r];
        case.row_upper = vec![self.value(9).abs(); r];
        case
    }

    /// A pull so strong that the best point holds every variable at a bound.
    fn corner(&mut self) -> Case {
        let mut case = self.conditioned();
        for i in 0..case.n {
            case.c[i] = self.rng.pick(&[-120.0, 120.0]) * 8.0;
            if self.rng.chance(40) {
                case.start[i] = self.rng.pick(&[case.lower[i], case.upper[i]]);
            }
        }
        if self.rng.chance(50) {
            (case.m, case.r) = (0, 0);
            for slice in [
                &mut case.e,
                &mut case.b,
                &mut case.a,
                &mut case.row_lower,
                &mut case.row_upper,
            ] {
                slice.clear();
            }
        }
        case
    }

    /// Flat directions with a pull along them and few bounds.
    fn unbounded(&mut self) -> Case {
        let mut case = self.singular();
        for i in 0..case.n {
            if self.rng.chance(80) {
                case.lower[i] = f64::NEG_INFINITY;
            }
            if self.rng.chance(80) {
                case.upper[i] = f64::INFINITY;
            }
            if self.rng.chance(70) {
                case.c[i] += self.value(20);
            }
        }
        for j in 0..case.r {
            if self.rng.chance(70) {
                case.row_lower[j] = f64::NEG_INFINITY;
                case.row_upper[j] = f64::INFINITY;
            }
        }
        case
    }

    /// Enough variables that a factor is kept and changed, many of them held at the start.
    fn joining(&mut self) -> Case {
        let n = match self.style {
            Style::Compact => 7 + self.rng.below(6),
            Style::Wide => 7 + self.rng.below(MAX_ORIGINALS - 6),
        };
        let m = self.rng.below(3);
        let r = self.rng.below(3);
        let mut case = self.problem(n, m, r, n / 2, 2.0);
        for i in 0..n {
            if self.rng.chance(50) {
                case.lower[i] = case.start[i];
                case.upper[i] = case.start[i] + 9.0;
            }
        }
        case
    }
}

/// Each of `count` columns times `x`.
fn times(columns: &[f64], x: &[f64], count: usize) -> Vec<f64> {
    (0..count)
        .map(|j| {
            (0..x.len())
                .map(|i| columns[i + j * x.len()] * x[i])
                .sum_from_zero()
        })
        .collect()
}

fn scale(values: &mut [f64], by: f64) {
    for value in values {
        *value *= by;
    }
}
