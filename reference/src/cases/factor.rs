//! Seeded cases of the factor that the active set keeps: sequences of free sets for `Factoring`,
//! and problems for `solve_factored`, with their records.

use super::algebra::lower;
use super::code::{Decoder, Encoder, same};
use super::matrix;
use crate::kernels::{self, Factored, Factoring};
use crate::matrix::SumFromZero;
use crate::rng::Rng;

/// The most variables, rows of Q, and columns of E.
const ORIGINALS: usize = 32;
const ROWS: usize = 48;
const COLUMNS: usize = 24;

/// Whether two slices are the same, any two NaNs being so.
fn all_same(a: &[f64], b: &[f64]) -> bool {
    a.len() == b.len() && a.iter().zip(b).all(|(&a, &b)| same(a, b))
}

/// A step of a sequence.
#[derive(Debug, Clone, PartialEq, Eq)]
pub enum Step {
    Update(Vec<usize>),
    Reset,
}

/// A matrix Q and what its `Factoring` is asked for. Its first `originals` variables may be free.
#[derive(Debug, Clone)]
pub struct Sequence {
    pub family: &'static str,
    pub n: usize,
    pub originals: usize,
    pub q: Vec<f64>,
    pub steps: Vec<Step>,
}

/// How an update came out.
#[derive(Debug, Clone, Copy, PartialEq, Eq)]
pub enum Way {
    Updated,
    Afresh,
    Singular,
    ContainsSingular,
}

/// What an update gives: the factor's lower triangle, and the last singular set, which is empty
/// where there is none.
#[derive(Debug, Clone)]
pub struct Updated {
    pub factor: Option<Vec<f64>>,
    pub singular: Vec<usize>,
}

impl Updated {
    pub fn agrees(&self, other: &Updated) -> bool {
        let factors = match (&self.factor, &other.factor) {
            (Some(a), Some(b)) => all_same(a, b),
            (a, b) => a.is_none() && b.is_none(),
        };
        factors && self.singular == other.singular
    }
}

/// `factoring`'s update to `indices`, and its way.
fn update(factoring: &mut Factoring, indices: &[usize]) -> (Updated, Way) {
    let by_update = factoring.updated(indices).is_some();
    let contains_singular = factoring
        .singular()
        .is_some_and(|set| set.iter().all(|i| indices.contains(i)));
    let factor = factoring.update(indices);
    let way = match (&factor, by_update, contains_singular) {
        (Some(_), true, _) => Way::Updated,
        (Some(_), false, _) => Way::Afresh,
        (None, _, true) => Way::ContainsSingular,
        (None, _, false) => Way::Singular,
    };
    let updated = Updated {
        factor: factor.map(|factor| lower(&factor, indices.len())),
        singular: factoring.singular().unwrap_or(&[]).to_vec(),
    };
    (updated, way)
}

impl Sequence {
    /// The reference's outcomes of the updates, in order.
    pub fn run(&self) -> Vec<(Updated, Way)> {
        let mut factoring = Factoring::new(&self.q, self.n);
        let mut outcomes = Vec::new();
        for step in &self.steps {
            match step {
                Step::Update(indices) => outcomes.push(update(&mut factoring, indices)),
                Step::Reset => factoring.reset(),
            }
        }
        outcomes
    }

    /// The body of this sequence's record, its outcomes included.
    pub fn encode(&self, outcomes: &[(Updated, Way)]) -> Vec<u8> {
        let mut body = Encoder::default();
        body.byte(0);
        for count in [self.n, self.originals, self.steps.len()] {
            body.byte(count);
        }
        body.slice(&self.q);
        let mut outcomes = outcomes.iter();
        for step in &self.steps {
            match step {
                Step::Update(indices) => {
                    let (updated, _) = outcomes.next().expect("an outcome for each update");
                    body.byte(0);
                    body.u32(bits(indices));
                    body.u32(bits(&updated.singular));
                    body.byte(usize::from(updated.factor.is_none()));
                    if let Some(factor) = &updated.factor {
                        body.slice(factor);
                    }
                }
                Step::Reset => body.byte(1),
            }
        }
        body.bytes
    }
}

/// A set as a number: bit i is 1 where i is in it.
fn bits(set: &[usize]) -> u64 {
    set.iter().map(|i| 1 << i).sum()
}

fn set_of(bits: u64) -> Vec<usize> {
    (0..ORIGINALS).filter(|i| bits >> i & 1 == 1).collect()
}

/// A problem for `solve_factored`: E has as many columns as b has numbers.
#[derive(Debug, Clone)]
pub struct System {
    pub family: &'static str,
    pub l: Vec<f64>,
    pub k: Vec<f64>,
    pub c: Vec<f64>,
    pub e: Vec<f64>,
    pub b: Vec<f64>,
    pub noise: f64,
}

/// x and the multipliers, or nothing.
pub type Solution = Option<(Vec<f64>, Vec<f64>)>;

pub fn agree(a: &Solution, b: &Solution) -> bool {
    match (a, b) {
        (Some(a), Some(b)) => all_same(&a.0, &b.0) && all_same(&a.1, &b.1),
        (a, b) => a.is_none() && b.is_none(),
    }
}

impl System {
    fn slices(&self) -> [&[f64]; 4] {
        [&self.k, &self.c, &self.e, &self.b]
    }

    /// The reference's outcome.
    pub fn run(&self) -> Solution {
        Factored::new(&self.l, self.slices(), self.noise).solve()
    }

    /// The body of this system's record, its outcome included.
    pub fn encode(&self, solution: &Solution) -> Vec<u8> {
        let mut body = Encoder::default();
        for number in [1, self.c.len(), self.b.len(), 0] {
            body.byte(number);
        }
        body.slice(&self.l);
        for slice in self.slices() {
            body.slice(slice);
        }
        body.slice(&[self.noise]);
        body.byte(usize::from(solution.is_none()));
        if let Some((x, multipliers)) = solution {
            body.slice(x);
            body.slice(multipliers);
        }
        body.bytes
    }
}

/// A record: a sequence or a system, with its outcomes.
pub enum Record {
    Sequence(Sequence, Vec<Updated>),
    System(System, Solution),
}

impl Record {
    /// The record of a body.
    pub fn decode(mut body: Decoder) -> Record {
        let kind = body.byte();
        let counts = [body.byte(), body.byte(), body.byte()];
        let record = match kind {
            0 => sequence(&mut body, counts),
            _ => system(&mut body, counts),
        };
        assert!(body.at_end(), "bytes after a record's outcome");
        record
    }
}

fn sequence(body: &mut Decoder, [n, originals, steps]: [usize; 3]) -> Record {
    let q = body.slice();
    let mut sequence = Sequence {
        family: "",
        n,
        originals,
        q,
        steps: Vec::new(),
    };
    let mut outcomes = Vec::new();
    for _ in 0..steps {
        if body.byte() == 1 {
            sequence.steps.push(Step::Reset);
            continue;
        }
        sequence.steps.push(Step::Update(set_of(body.u32())));
        let singular = set_of(body.u32());
        let factor = (body.byte() == 0).then(|| body.slice());
        outcomes.push(Updated { factor, singular });
    }
    Record::Sequence(sequence, outcomes)
}

fn system(body: &mut Decoder, [n, m, _]: [usize; 3]) -> Record {
    let system = System {
        family: "",
        l: body.slice(),
        k: body.slice(),
        c: body.slice(),
        e: body.slice(),
        b: body.slice(),
        noise: body.slice()[0],
    };
    assert_eq!((system.c.len(), system.b.len()), (n, m));
    let solution = (body.byte() == 0).then(|| (body.slice(), body.slice()));
    Record::System(system, solution)
}

/// The families of sequences, with how many the list has of each.
pub const SEQUENCES: [(&str, u64); 8] = [
    ("few variables", 70),
    ("dense", 55),
    ("sparse", 50),
    ("many variables", 8),
    ("low rank", 50),
    ("nearly singular", 40),
    ("not symmetric", 20),
    ("not finite", 30),
];

/// The families of systems, with how many the list has of each.
pub const SYSTEMS: [(&str, u64); 9] = [
    ("plain", 150),
    ("after updates", 60),
    ("zero column", 30),
    ("parallel columns", 60),
    ("nearly parallel", 90),
    ("many columns", 30),
    ("another factor", 50),
    ("far scales", 60),
    ("not finite", 50),
];

/// Makes the cases from a seed.
pub struct Generator {
    rng: Rng,
}

impl Generator {
    fn new(seed: u64, family: u64, number: u64) -> Self {
        Generator {
            rng: Rng::of_case(seed, number ^ (family << 32)),
        }
    }

    /// Sequence `number` of a family in the run of `seed`.
    pub fn sequence(family: usize, seed: u64, number: u64) -> Sequence {
        let mut generator = Generator::new(seed, 100 + family as u64, number);
        let name = SEQUENCES[family].0;
        let originals = generator.originals(name);
        let block = generator.block(name, originals);
        let slacks = generator.rng.below(ROWS - ORIGINALS + 1);
        let n = originals + if generator.rng.chance(60) { slacks } else { 0 };
        // What stands in the rows of slacks, which are never free, means nothing.
        let other = generator.rng.pick(&[0.0, 0.0, 7.0, f64::NAN]);
        let q = matrix(n, |i, j| match i < originals && j < originals {
            true => block[i + j * originals],
            false => other,
        });
        let steps = generator.steps(name, originals, &q, n);
        Sequence {
            family: name,
            n,
            originals,
            q,
            steps,
        }
    }

    fn between(&mut self, least: usize, most: usize) -> usize {
        least + self.rng.below(most + 1 - least)
    }

    fn originals(&mut self, family: &str) -> usize {
        match family {
            "few variables" => self.between(1, 6),
            "sparse" => self.between(7, 20),
            "many variables" => self.between(24, ORIGINALS),
            "low rank" => self.between(2, 12),
            _ => self.between(3, 12),
        }
    }

    /// Multiples of 1/16 from −2 to 2.
    fn fractions(&mut self, count: usize) -> Vec<f64> {
        (0..count)
            .map(|_| self.rng.int(-32, 32) as f64 / 16.0)
            .collect()
    }

    /// `B Bᵀ` for an n × rank matrix `B`, with `ridge` on its diagonal.
    fn gram(&mut self, n: usize, rank: usize, ridge: f64) -> Vec<f64> {
        let b = self.fractions(n * rank);
        matrix(n, |i, j| {
            let products = (0..rank).map(|k| b[i + k * n] * b[j + k * n]);
            products.sum_from_zero() + if i == j { ridge } else { 0.0 }
        })
    }

    /// Q on the variables.
    fn block(&mut self, family: &str, n: usize) -> Vec<f64> {
        let ridge = self.rng.pick(&[0.25, 1.0, 3.0]);
        match family {
            "sparse" => self.banded(n),
            "low rank" => {
                let rank = 1 + self.rng.below(n);
                let ridge = self.rng.pick(&[0.0, 0.0, 0.0, 2f64.powi(-27)]);
                self.gram(n, rank, ridge)
            }
            "nearly singular" => self.nearly_singular(n),
            "not symmetric" => {
                let mut q = self.gram(n, n, ridge);
                for j in 0..n {
                    for i in 0..j {
                        q[i + j * n] += self.rng.int(-16, 16) as f64 / 256.0;
                    }
                }
                q
            }
            "not finite" => {
                let mut q = self.gram(n, n, ridge);
                let (i, j) = (self.rng.below(n), self.rng.below(n));
                let special = self
                    .rng
                    .pick(&[f64::NAN, f64::NAN, f64::INFINITY, 1e300, -0.0]);
                q[i + j * n] = special;
                q[j + i * n] = special;
                q
            }
            _ => self.gram(n, n, ridge),
        }
    }

    /// A unit diagonal and a few entries beside it, as of tempos between neighbours.
    fn banded(&mut self, n: usize) -> Vec<f64> {
        let width = self.between(1, 2);
        let values = self.fractions(n * n);
        matrix(n, |i, j| match i.abs_diff(j) {
            0 => 1.0,
            apart if apart <= width => values[i.max(j) + i.min(j) * n] / 8.0,
            _ => 0.0,
        })
    }

    /// A unit diagonal, and pairs of variables whose blocks have a second pivot next to the floor.
    fn nearly_singular(&mut self, n: usize) -> Vec<f64> {
        let pairs: Vec<f64> = (0..n)
            .map(|_| {
                let pivot = 2f64.powi(-26) * self.rng.pick(&[0.5, 0.999, 1.0, 1.001, 2.0, 64.0]);
                (1.0 - pivot).sqrt()
            })
            .collect();
        matrix(n, |i, j| match (i.abs_diff(j), i.min(j)) {
            (0, _) => 1.0,
            (1, first) if first % 2 == 0 => pairs[first],
            _ => 0.0,
        })
    }

    fn steps(&mut self, family: &str, originals: usize, q: &[f64], n: usize) -> Vec<Step> {
        let updates = match family {
            "few variables" | "low rank" | "nearly singular" => self.between(5, 40),
            "many variables" => self.between(5, 7),
            _ if self.rng.chance(10) => self.between(15, 30),
            _ => self.between(5, 12),
        };
        let mut factoring = Factoring::new(q, n);
        let mut set = self.some(originals);
        let mut steps = Vec::new();
        for _ in 0..updates {
            if self.rng.chance(6) {
                factoring.reset();
                steps.push(Step::Reset);
            }
            set = self.next(&set, originals, factoring.singular());
            factoring.update(&set);
            steps.push(Step::Update(set.clone()));
        }
        steps
    }

    /// Most variables.
    fn some(&mut self, originals: usize) -> Vec<usize> {
        let percent = self.rng.pick(&[50, 75, 90, 100]);
        (0..originals)
            .filter(|_| self.rng.chance(percent))
            .collect()
    }

    /// The free set after `set`.
    fn next(&mut self, set: &[usize], originals: usize, singular: Option<&[usize]>) -> Vec<usize> {
        let one = self.rng.below(originals);
        let other = self.rng.below(originals);
        let joined = |set: &[usize], i: usize| {
            let all = 0..originals;
            all.filter(|j| *j == i || set.contains(j)).collect()
        };
        let left = |set: &[usize], i: usize| -> Vec<usize> {
            set.iter().copied().filter(|&j| j != i).collect()
        };
        match (self.rng.below(100), singular) {
            (0..24, _) => joined(set, one),
            (24..46, _) => left(set, one),
            (46..58, _) => joined(&left(set, one), other),
            (58..64, _) => joined(&joined(set, one), other),
            (64..70, _) => {
                let stays = self.rng.pick(&[30, 60, 80]);
                let mut set = set.to_vec();
                set.retain(|_| self.rng.chance(stays));
                set
            }
            (70..75, _) => (0..originals).collect(),
            (75..77, _) => Vec::new(),
            (77..80, _) => set.to_vec(),
            (80..88, _) => self.some(originals),
            (88..92, Some(singular)) => joined(singular, one),
            (92..95, Some(singular)) => joined(&joined(singular, one), other),
            (95..97, Some(singular)) => singular.to_vec(),
            (97.., Some(singular)) => left(singular, singular[one % singular.len()]),
            (88.., None) => joined(set, one),
        }
    }

    /// System `number` of a family in the run of `seed`.
    pub fn system(family: usize, seed: u64, number: u64) -> System {
        let mut generator = Generator::new(seed, 200 + family as u64, number);
        let name = SYSTEMS[family].0;
        let n = generator.variables();
        let m = generator.columns(name, n);
        let (l, k) = generator.factored(name, n);
        let mut system = System {
            family: name,
            l,
            k,
            c: generator.fractions(n),
            e: generator.fractions(n * m),
            b: generator.fractions(m),
            noise: generator.rng.pick(&[0.0, 0.0, 1.0, 100.0]),
        };
        generator.spoil(&mut system);
        system
    }

    /// Mostly few.
    fn variables(&mut self) -> usize {
        match self.rng.below(40) {
            0 => ORIGINALS,
            1 => 0,
            2..5 => self.between(9, 20),
            _ => self.between(1, 8),
        }
    }

    fn columns(&mut self, family: &str, n: usize) -> usize {
        match family {
            "many columns" if self.rng.chance(50) => n.min(COLUMNS),
            "many columns" => self.between(n, COLUMNS.max(n)).min(COLUMNS),
            "zero column" => self.between(1, n.clamp(1, COLUMNS)),
            "parallel columns" | "nearly parallel" => self.between(2, n.clamp(2, COLUMNS)),
            _ => self.rng.below(n.min(COLUMNS) + 1).min(self.between(0, 6)),
        }
    }

    /// A factor and the matrix that it is the factor of, or was meant to be.
    fn factored(&mut self, family: &str, n: usize) -> (Vec<f64>, Vec<f64>) {
        let k = self.gram(n, n, 1.0);
        let mut l = kernels::cholesky(&k, n).expect("a definite matrix");
        match family {
            "after updates" => return self.after_updates(n),
            "another factor" => {
                for i in 0..n {
                    l[i + i * n] *= self.rng.pick(&[1.0, 1.0 + 2f64.powi(-20), 1.5, -1.0]);
                }
            }
            _ => {}
        }
        if self.rng.chance(25) {
            self.soil(&mut l, n);
        }
        (l, k)
    }

    /// A factor to which variables have joined and from which others have left.
    fn after_updates(&mut self, n: usize) -> (Vec<f64>, Vec<f64>) {
        let all = n + 4;
        let q = self.gram(all, all, 1.0);
        let mut factoring = Factoring::new(&q, all);
        let mut l = None;
        let mut set: Vec<usize> = Vec::new();
        for _ in 0..6 {
            let first = self.rng.below(5);
            set = (first..first + n).collect();
            l = factoring.update(&set);
        }
        let k = matrix(n, |i, j| q[set[i] + set[j] * all]);
        (l.expect("a definite matrix"), k)
    }

    /// Puts values above the diagonal, where no factor is read.
    fn soil(&mut self, l: &mut [f64], n: usize) {
        for j in 1..n {
            l[self.rng.below(j) + j * n] = self.rng.pick(&[f64::NAN, 7.0, f64::INFINITY]);
        }
    }

    /// Makes the system what its family says.
    fn spoil(&mut self, system: &mut System) {
        let (n, m) = (system.c.len(), system.b.len());
        let from = self.rng.below(m.max(1));
        let to = match m {
            0 | 1 => 0,
            _ => (from + 1 + self.rng.below(m - 1)) % m,
        };
        match system.family {
            "zero column" => {
                let zero = self.rng.pick(&[0.0, -0.0]);
                system.e[to * n..(to + 1) * n].fill(zero);
            }
            "parallel columns" => {
                let by = self.rng.pick(&[1.0, 2.0, -3.0]);
                for i in 0..n {
                    system.e[i + to * n] = by * system.e[i + from * n];
                }
            }
            "nearly parallel" if n > 0 => {
                for i in 0..n {
                    system.e[i + to * n] = system.e[i + from * n];
                }
                let apart = self.rng.pick(&[-3, -5, -8, -9, -10, -11, -12, -13, -16]);
                system.e[self.rng.below(n) + to * n] += 2f64.powi(apart);
            }
            "far scales" => self.scale(system),
            "not finite" => self.put_special(system),
            _ => {}
        }
    }

    /// Columns of E, c, b and the noise far from 1.
    fn scale(&mut self, system: &mut System) {
        let n = system.c.len();
        for (j, b) in system.b.iter_mut().enumerate() {
            let by = 10f64.powi(self.rng.int(-160, 160) as i32);
            *b *= by;
            for entry in &mut system.e[j * n..(j + 1) * n] {
                *entry *= by;
            }
        }
        let by = 10f64.powi(self.rng.int(-300, 300) as i32);
        for c in &mut system.c {
            *c *= by;
        }
        system.noise = self.rng.pick(&[0.0, by, 1e300, f64::MAX]);
    }

    fn put_special(&mut self, system: &mut System) {
        let special = [f64::NAN, f64::INFINITY, f64::NEG_INFINITY, f64::MAX];
        let special = self.rng.pick(&special);
        let slice = match self.rng.below(5) {
            0 => &mut system.c,
            1 => &mut system.b,
            2 => &mut system.e,
            3 => &mut system.k,
            _ => return system.noise = special,
        };
        let count = slice.len();
        if count > 0 {
            slice[self.rng.below(count)] = special;
        }
    }
}
