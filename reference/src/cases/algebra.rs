//! Seeded cases of the arithmetic's kernels, and their records.

use super::code::{Decoder, Encoder, same};
use super::matrix;
use crate::kernels;
use crate::matrix::SumFromZero;
use crate::rng::Rng;

/// A kernel.
#[derive(Debug, Clone, Copy, PartialEq, Eq)]
pub enum Kind {
    Root,
    Dot,
    Norm,
    ScaledNorm,
    Amax,
    Cholesky,
    PositiveDefinite,
    Forward,
    Transposed,
    Remove,
    Insert,
    Qr,
    Rotate,
    Eigen,
}

/// Every kind, with its name and how many records the fixed list has of it.
pub const KINDS: [(Kind, &str, usize); 14] = [
    (Kind::Root, "root", 320),
    (Kind::Dot, "dot", 180),
    (Kind::Norm, "norm", 150),
    (Kind::ScaledNorm, "scaled norm", 200),
    (Kind::Amax, "amax", 120),
    (Kind::Cholesky, "cholesky", 330),
    (Kind::PositiveDefinite, "positive definite", 130),
    (Kind::Forward, "forward", 220),
    (Kind::Transposed, "transposed", 220),
    (Kind::Remove, "remove", 210),
    (Kind::Insert, "insert", 230),
    (Kind::Qr, "qr", 230),
    (Kind::Rotate, "rotate", 220),
    (Kind::Eigen, "eigen", 230),
];

/// The most rows of a vector or of `qr`, the most columns of `qr`, and the largest square matrix.
const ROWS: usize = 48;
const COLUMNS: usize = 24;
const SQUARE: usize = 32;

/// The inputs of a kernel: up to three counts and two slices.
#[derive(Debug, Clone)]
pub struct Case {
    pub kind: Kind,
    pub counts: [usize; 3],
    pub first: Vec<f64>,
    pub second: Vec<f64>,
}

/// What a kernel gave: up to two slices, or nothing.
pub type Outcome = Option<[Vec<f64>; 2]>;

/// Whether two outcomes agree, any two NaNs being the same.
pub fn agree(a: &Outcome, b: &Outcome) -> bool {
    let all_same = |(a, b): (&Vec<f64>, &Vec<f64>)| {
        a.len() == b.len() && a.iter().zip(b).all(|(&a, &b)| same(a, b))
    };
    match (a, b) {
        (Some(a), Some(b)) => a.iter().zip(b).all(all_same),
        (a, b) => a.is_none() && b.is_none(),
    }
}

impl Case {
    /// The reference's outcome. Of a factor it has the lower triangle, column after column.
    pub fn run(&self) -> Outcome {
        let (first, second) = (self.first.as_slice(), self.second.as_slice());
        let [n, k, l] = self.counts;
        let number = |value: f64| Some([vec![value], Vec::new()]);
        let list = |values: Vec<f64>| [values, Vec::new()];
        match self.kind {
            Kind::Root => number(first[0].sqrt()),
            Kind::Dot => number(kernels::dot(first, second)),
            Kind::Norm => number(kernels::norm(first)),
            Kind::ScaledNorm => number(kernels::scaled_norm(first)),
            Kind::Amax => number(kernels::amax(first)),
            Kind::Cholesky => kernels::cholesky(first, n).map(|factor| list(lower(&factor, n))),
            Kind::PositiveDefinite => kernels::positive_definite(first, n).then(|| list(vec![])),
            Kind::Forward => kernels::solve_lower_triangular(first, second, n, k).map(list),
            Kind::Transposed => kernels::tr_solve_lower_triangular(first, second, n, k).map(list),
            Kind::Remove => {
                let factor = kernels::remove_column(first, n, k);
                Some(list(lower(&factor, n - 1)))
            }
            Kind::Insert => {
                let factor = kernels::insert_column(first, n, k, second);
                Some(list(lower(&factor, n + 1)))
            }
            Kind::Qr => Some(kernels::qr(first, second, n, k, l).into()),
            Kind::Rotate => Some(kernels::rotate(first, second, n, k, l).into()),
            Kind::Eigen => kernels::eigen(first, n).map(Into::into),
        }
    }

    /// The body of this case's record, its outcome included.
    pub fn encode(&self, outcome: &Outcome) -> Vec<u8> {
        let mut body = Encoder::default();
        body.byte(self.kind as usize);
        for count in self.counts {
            body.byte(count);
        }
        body.slice(&self.first);
        body.slice(&self.second);
        body.byte(usize::from(outcome.is_none()));
        for slice in outcome.iter().flatten() {
            body.slice(slice);
        }
        body.bytes
    }

    /// The case and the outcome of a record's body.
    pub fn decode(mut body: Decoder) -> (Case, Outcome) {
        let case = Case {
            kind: KINDS[body.byte()].0,
            counts: [body.byte(), body.byte(), body.byte()],
            first: body.slice(),
            second: body.slice(),
        };
        let outcome = match body.byte() {
            0 => Some([body.slice(), body.slice()]),
            _ => None,
        };
        assert!(body.at_end(), "bytes after a record's outcome");
        (case, outcome)
    }
}

/// The lower triangle of an n × n matrix, column after column.
pub fn lower(a: &[f64], n: usize) -> Vec<f64> {
    (0..n)
        .flat_map(|j| a[j + j * n..n + j * n].iter().copied())
        .collect()
}

/// Makes cases of the kernels from a seed.
pub struct Generator {
    rng: Rng,
    /// How often in a hundred a value is a special one.
    special: usize,
}

impl Generator {
    /// Case `number` of `kind` in the run of `seed`.
    pub fn case(kind: Kind, seed: u64, number: u64) -> Case {
        let mut rng = Rng::of_case(seed, number ^ ((kind as u64) << 32));
        let special = match rng.chance(75) {
            true => 0,
            false => rng.pick(&[3, 10, 40]),
        };
        let mut generator = Generator { rng, special };
        match kind {
            Kind::Root => generator.root(number),
            Kind::Dot => generator.dot(),
            Kind::Norm | Kind::ScaledNorm | Kind::Amax => generator.vector(kind),
            Kind::Cholesky => generator.cholesky(),
            Kind::PositiveDefinite => generator.positive_definite(),
            Kind::Forward | Kind::Transposed => generator.triangular(kind),
            Kind::Remove => generator.remove(),
            Kind::Insert => generator.insert(),
            Kind::Qr => generator.qr(),
            Kind::Rotate => generator.rotate(),
            Kind::Eigen => generator.eigen(),
        }
    }

    /// A size from `least` to `limit`, mostly small.
    fn size(&mut self, least: usize, limit: usize) -> usize {
        match self.rng.below(40) {
            0 => limit,
            1..4 => least + self.rng.below(limit + 1 - least),
            _ => least + self.rng.below(6),
        }
    }

    fn value(&mut self) -> f64 {
        if self.rng.chance(self.special) {
            return self.rng.pick(&[
                f64::NAN,
                f64::INFINITY,
                f64::NEG_INFINITY,
                0.0,
                -0.0,
                f64::MAX,
                -f64::MAX,
                f64::MIN_POSITIVE,
                5e-324,
                1e154,
                -1e155,
                1e-162,
                1e300,
                1e-300,
            ]);
        }
        match self.rng.below(20) {
            0 => (2.0 * self.rng.unit() - 1.0) * 10f64.powi(self.rng.int(-3, 3) as i32),
            1..4 => self.rng.int(-2000, 2000) as f64 / 256.0,
            _ => self.rng.int(-9, 9) as f64,
        }
    }

    fn values(&mut self, count: usize) -> Vec<f64> {
        (0..count).map(|_| self.value()).collect()
    }

    /// A root of each class in turn.
    fn root(&mut self, number: u64) -> Case {
        let x = match number % 10 {
            0 => self.rng.pick(&SPECIAL_ROOTS),
            1 => SPECIAL_ROOTS[number as usize / 10 % SPECIAL_ROOTS.len()],
            2 => square(self.rng.int(0, 1 << 26)),
            3 => {
                let next = [f64::next_up, f64::next_down];
                self.rng.pick(&next)(square(self.rng.int(1, 1 << 26)))
            }
            4 => {
                let far = 2f64.powi(2 * self.rng.int(-500, 480) as i32);
                square(self.rng.int(1, 1 << 26)) * far
            }
            // Near the square of a point halfway between two floats.
            5 => {
                let root = (self.rng.bits() >> 12) | (1 << 52);
                let halfway = 2 * u128::from(root) + 1;
                let near = (halfway * halfway) as f64 * 2f64.powi(self.rng.int(-500, 400) as i32);
                self.rng.pick(&[near, near.next_up(), near.next_down()])
            }
            6 => f64::from_bits(self.rng.bits() >> self.rng.int(12, 63)),
            7 => 2f64.powi(self.rng.int(-1022, 1023) as i32),
            8 => f64::from_bits(self.rng.bits()),
            _ => self.rng.unit() * 10f64.powi(self.rng.int(-10, 10) as i32),
        };
        Case {
            kind: Kind::Root,
            counts: [0; 3],
            first: vec![x],
            second: Vec::new(),
        }
    }

    fn dot(&mut self) -> Case {
        let n = self.size(0, ROWS);
        Case {
            kind: Kind::Dot,
            counts: [n, 0, 0],
            first: self.values(n),
            second: self.values(n),
        }
    }

    fn vector(&mut self, kind: Kind) -> Case {
        let n = self.size(0, ROWS);
        let scale = match self.rng.chance(60) {
            true => 1.0,
            false => 10f64.powi(self.rng.int(-300, 300) as i32),
        };
        let first = self.values(n).iter().map(|v| v * scale).collect();
        Case {
            kind,
            counts: [n, 0, 0],
            first,
            second: Vec::new(),
        }
    }

    /// `B Bᵀ` with `ridge` on its diagonal, for an n × n matrix `B`.
    fn gram(&mut self, n: usize, ridge: f64) -> Vec<f64> {
        let b: Vec<f64> = (0..n * n).map(|_| self.rng.int(-2, 2) as f64).collect();
        matrix(n, |i, j| {
            let sum = (0..n).map(|k| b[i + k * n] * b[j + k * n]).sum_from_zero();
            if i == j { sum + ridge } else { sum }
        })
    }

    /// A symmetric matrix of any values.
    fn symmetric(&mut self, n: usize) -> Vec<f64> {
        let a = self.values(n * n);
        matrix(n, |i, j| a[i.max(j) + i.min(j) * n])
    }

    /// Puts values above the diagonal, where no factor is read.
    fn soil(&mut self, a: &mut [f64], n: usize) {
        if self.rng.chance(25) {
            for j in 1..n {
                a[self.rng.below(j) + j * n] = self.rng.pick(&[f64::NAN, 7.0, f64::INFINITY]);
            }
        }
    }

    fn cholesky(&mut self) -> Case {
        let n = self.size(0, SQUARE);
        let mut first = match self.rng.below(5) {
            0 => self.gram(n, 0.0),
            1 => self.symmetric(n),
            _ => {
                let ridge = self.rng.int(1, 9) as f64;
                self.gram(n, ridge)
            }
        };
        if n > 0 && self.special > 0 {
            let place = self.rng.below(n * n);
            first[place] = self.value();
        }
        self.soil(&mut first, n);
        Case {
            kind: Kind::Cholesky,
            counts: [n, 0, 0],
            first,
            second: Vec::new(),
        }
    }

    fn positive_definite(&mut self) -> Case {
        let n = self.size(0, SQUARE);
        let floor = 2f64.powi(-13);
        let mut first = vec![0.0; n * n];
        for i in 0..n {
            let usual = self.rng.int(1, 9) as f64;
            first[i + i * n] = match self.rng.below(12) {
                0 => self.rng.pick(&[floor, floor.next_up(), 1e-3, -1.0]),
                1 if self.rng.chance(40) => {
                    self.rng
                        .pick(&[floor.next_down(), 0.0, -0.0, f64::NAN, 1e-9])
                }
                2 => f64::INFINITY,
                _ => usual,
            };
        }
        self.soil(&mut first, n);
        Case {
            kind: Kind::PositiveDefinite,
            counts: [n, 0, 0],
            first,
            second: Vec::new(),
        }
    }

    /// A lower triangle whose diagonal holds no 0.
    fn factor(&mut self, n: usize) -> Vec<f64> {
        let values = self.values(n * n);
        let mut factor = matrix(n, |i, j| if i > j { values[i + j * n] } else { 0.0 });
        for i in 0..n {
            let value = self.value().abs();
            factor[i + i * n] = if value == 0.0 { 1.0 } else { value };
        }
        self.soil(&mut factor, n);
        factor
    }

    fn triangular(&mut self, kind: Kind) -> Case {
        let n = self.size(0, SQUARE);
        let k = self.rng.below(4);
        let mut first = self.factor(n);
        for i in 0..n {
            if self.rng.chance(20) {
                first[i + i * n] = -first[i + i * n];
            }
        }
        if n > 0 && self.rng.chance(15) {
            let i = self.rng.below(n);
            first[i + i * n] = self.rng.pick(&[0.0, -0.0]);
        }
        Case {
            kind,
            counts: [n, k, 0],
            first,
            second: self.values(n * k),
        }
    }

    fn remove(&mut self) -> Case {
        let n = self.size(1, SQUARE);
        let first = match self.rng.chance(50) {
            true => self.factor(n),
            false => kernels::cholesky(&self.gram(n, 1.0), n).expect("a definite matrix"),
        };
        let position = self.rng.below(n);
        Case {
            kind: Kind::Remove,
            counts: [n, position, 0],
            first,
            second: Vec::new(),
        }
    }

    /// A variable joining: mostly a column of the matrix whose other part was factored.
    fn insert(&mut self) -> Case {
        let n = self.size(0, SQUARE - 1);
        let position = self.rng.below(n + 1);
        let (first, second) = match self.rng.chance(60) {
            true => {
                let ridge = self.rng.pick(&[0.0, 1.0, 3.0]);
                let whole = self.gram(n + 1, ridge);
                let column = whole[position * (n + 1)..(position + 1) * (n + 1)].to_vec();
                let place = |i: usize| if i < position { i } else { i + 1 };
                let part = matrix(n, |i, j| whole[place(i) + place(j) * (n + 1)]);
                match kernels::cholesky(&part, n) {
                    Some(factor) => (factor, column),
                    None => (self.factor(n), column),
                }
            }
            false => (self.factor(n), self.values(n + 1)),
        };
        Case {
            kind: Kind::Insert,
            counts: [n, position, 0],
            first,
            second,
        }
    }

    /// A matrix with no more columns than rows, and the identity, or a few columns where that is
    /// large.
    fn qr(&mut self) -> Case {
        let n = match self.rng.below(60) {
            0 => ROWS,
            1 => SQUARE,
            _ => self.size(1, 16),
        };
        let m = match n {
            25.. => COLUMNS,
            _ => 1 + self.rng.below(n),
        };
        let mut first = self.values(n * m);
        if self.rng.chance(30) {
            let j = self.rng.below(m);
            for i in 0..n {
                if self.rng.chance(85) || i == j {
                    first[i + j * n] = self.rng.pick(&[0.0, -0.0]);
                }
            }
        }
        if self.rng.chance(10) {
            let zero = self.rng.pick(&[0.0, -0.0]);
            let j = self.rng.below(m);
            first[j * n..(j + 1) * n].fill(zero);
        }
        let (k, second) = match n > 16 {
            true => (4, self.values(n * 4)),
            false => (n, matrix(n, |i, j| if i == j { 1.0 } else { 0.0 })),
        };
        Case {
            kind: Kind::Qr,
            counts: [n, m, k],
            first,
            second,
        }
    }

    fn rotate(&mut self) -> Case {
        let n = self.size(2, SQUARE).max(2);
        let p = self.rng.below(n - 1);
        let q = p + 1 + self.rng.below(n - 1 - p);
        let mut first = match self.rng.chance(80) {
            true => self.symmetric(n),
            false => self.values(n * n),
        };
        let entry = match self.rng.below(8) {
            0 => Some(0.0),
            1 => Some(-0.0),
            2 => Some(1e-200),
            3 => Some(5e-324),
            _ => None,
        };
        if let Some(entry) = entry {
            first[p + q * n] = entry;
            first[q + p * n] = entry;
        }
        if self.rng.chance(25) {
            first[q + q * n] = first[p + p * n];
        }
        let second = match self.rng.chance(50) {
            true => matrix(n, |i, j| if i == j { 1.0 } else { 0.0 }),
            false => self.values(n * n),
        };
        Case {
            kind: Kind::Rotate,
            counts: [n, p, q],
            first,
            second,
        }
    }

    fn eigen(&mut self) -> Case {
        let n = match self.rng.below(40) {
            0 => SQUARE,
            1 => 1 + self.rng.below(SQUARE),
            _ => self.rng.below(8),
        };
        let mut first = match self.rng.below(6) {
            0 => vec![0.0; n * n],
            1 => self.values(n * n),
            2 => self.gram(n, 0.0),
            _ => self.symmetric(n),
        };
        if self.rng.chance(15) {
            let scale = 10f64.powi(self.rng.pick(&[-320, -300, -160, 160, 300]));
            first = first.iter().map(|v| v * scale).collect();
        }
        if self.rng.chance(15) {
            let diagonal = self.values(n);
            first = matrix(n, |i, j| if i == j { diagonal[i] } else { 0.0 });
        }
        if n > 0 && self.rng.chance(8) {
            let place = self.rng.below(n * n);
            first[place] = self.rng.pick(&[f64::NAN, f64::INFINITY, f64::NEG_INFINITY]);
        }
        Case {
            kind: Kind::Eigen,
            counts: [n, 0, 0],
            first,
            second: Vec::new(),
        }
    }
}

/// Roots that have to be tried whatever the seed.
const SPECIAL_ROOTS: [f64; 20] = [
    0.0,
    -0.0,
    1.0,
    -1.0,
    2.0,
    3.0,
    4.0,
    f64::INFINITY,
    f64::NEG_INFINITY,
    f64::NAN,
    f64::MAX,
    -f64::MAX,
    f64::MIN_POSITIVE,
    f64::EPSILON,
    5e-324,
    1e-323,
    -5e-324,
    2.225_073_858_507_201e-308,
    0.999_999_999_999_999_9,
    1.000_000_000_000_000_2,
];

fn square(root: i64) -> f64 {
    (root * root) as f64
}
