//! Times of two sides on the same inputs, in one run: of the reference and the library, or of an
//! earlier build of the library and a later one.

use crate::cases::matrix;
use crate::kernels::dot;
use crate::rng::Rng;
use std::hint::black_box;
use std::time::{Duration, Instant};

/// How long each side runs for in a round, about.
const ROUND: Duration = Duration::from_millis(10);
const ROUNDS: usize = 101;

/// How long so many calls take.
fn time(call: &mut impl FnMut(), calls: u32) -> Duration {
    let started = Instant::now();
    for _ in 0..calls {
        call();
    }
    started.elapsed()
}

/// So many calls that they take a round, so that the clock is read twice in one, and that each of
/// so many inputs is called equally often.
fn calls_of_a_round(call: &mut impl FnMut(), inputs: usize) -> u32 {
    let mut calls = inputs as u32;
    while time(call, calls) < ROUND {
        calls *= 2;
    }
    calls
}

/// Nanoseconds of a call, over one round.
fn round(call: &mut impl FnMut(), calls: u32) -> f64 {
    time(call, calls).as_secs_f64() * 1e9 / f64::from(calls)
}

/// A row of the table: the shortest time of a call of each side, in nanoseconds.
struct Row {
    name: String,
    first: f64,
    second: f64,
}

impl Row {
    fn ratio(&self) -> f64 {
        self.second / self.first
    }
}

/// Times of calls, for docs/BENCHMARKS.md.
pub struct Table {
    sides: [&'static str; 2],
    rows: Vec<Row>,
}

impl Default for Table {
    fn default() -> Self {
        Table::of(["reference", "library"])
    }
}

impl Table {
    /// A table of these two sides.
    pub fn of(sides: [&'static str; 2]) -> Self {
        let rows = Vec::new();
        Table { sides, rows }
    }

    /// Adds the shortest time of a call of each side, taken in turn: what else the machine does
    /// only ever adds to a time. Each call gets the inputs after one another.
    pub fn measure<I, F, S>(
        &mut self,
        name: &str,
        inputs: &[I],
        first: impl Fn(&I) -> F,
        second: impl Fn(&I) -> S,
    ) {
        let mut turns = [inputs.iter().cycle(), inputs.iter().cycle()];
        let [of_first, of_second] = &mut turns;
        let mut first = || {
            black_box(of_first.next().map(|input| first(black_box(input))));
        };
        let mut second = || {
            black_box(of_second.next().map(|input| second(black_box(input))));
        };
        let (calls, second_calls) = (
            calls_of_a_round(&mut first, inputs.len()),
            calls_of_a_round(&mut second, inputs.len()),
        );
        let mut row = Row {
            name: name.to_string(),
            first: f64::INFINITY,
            second: f64::INFINITY,
        };
        for _ in 0..ROUNDS {
            row.first = row.first.min(round(&mut first, calls));
            row.second = row.second.min(round(&mut second, second_calls));
        }
        self.rows.push(row);
    }

    /// Prints the rows in Markdown, the highest ratio of the second side's time to the first's
    /// first.
    pub fn print(mut self) {
        self.rows.sort_by(|a, b| b.ratio().total_cmp(&a.ratio()));
        let [first, second] = self.sides;
        println!("| call | {first} | {second} | ratio |\n|---|---:|---:|---:|");
        for row in &self.rows {
            let (first, second) = (duration(row.first), duration(row.second));
            println!("| {} | {first} | {second} | {:.2} |", row.name, row.ratio());
        }
    }
}

/// How often each input is run on each side: the fewest times, and the most within this time.
const FEWEST_TURNS: usize = 3;
const MOST_TURNS: usize = 9;
const INPUT: Duration = Duration::from_millis(10);

/// The times of each input on each side, in nanoseconds, rising.
struct Spread {
    name: String,
    reference: Vec<f64>,
    library: Vec<f64>,
}

impl Spread {
    /// The times at so many percent, and the library's over the reference's.
    fn cells(&self, percent: usize) -> String {
        let at = |times: &[f64]| times[(times.len() - 1) * percent / 100];
        let (reference, library) = (at(&self.reference), at(&self.library));
        let ratio = library / reference;
        let (reference, library) = (duration(reference), duration(library));
        format!("{reference} | {library} | {ratio:.2}")
    }
}

/// Medians and 99th percentiles of calls whose times differ by input, for docs/BENCHMARKS.md.
#[derive(Default)]
pub struct Percentiles {
    rows: Vec<Spread>,
}

impl Percentiles {
    /// Adds the times of the inputs, for each the shortest of some calls of each side, taken in
    /// turn.
    pub fn measure<I, R, L>(
        &mut self,
        name: &str,
        inputs: &[I],
        reference: impl Fn(&I) -> R,
        library: impl Fn(&I) -> L,
    ) {
        let mut row = Spread {
            name: name.to_string(),
            reference: Vec::new(),
            library: Vec::new(),
        };
        for input in inputs {
            let mut first = || {
                black_box(reference(black_box(input)));
            };
            let mut second = || {
                black_box(library(black_box(input)));
            };
            let mut shortest = [f64::INFINITY; 2];
            let started = Instant::now();
            for turn in 0..MOST_TURNS {
                if turn >= FEWEST_TURNS && started.elapsed() > INPUT {
                    break;
                }
                shortest[0] = shortest[0].min(round(&mut first, 1));
                shortest[1] = shortest[1].min(round(&mut second, 1));
            }
            row.reference.push(shortest[0]);
            row.library.push(shortest[1]);
        }
        row.reference.sort_by(f64::total_cmp);
        row.library.sort_by(f64::total_cmp);
        self.rows.push(row);
    }

    /// Prints the rows in Markdown.
    pub fn print(self) {
        println!("| | median: reference | library | ratio | 99 %: reference | library | ratio |");
        println!("|---|---:|---:|---:|---:|---:|---:|");
        for row in &self.rows {
            println!("| {} | {} | {} |", row.name, row.cells(50), row.cells(99));
        }
    }
}

/// So many nanoseconds, in microseconds from one on, in milliseconds from ten.
fn duration(nanoseconds: f64) -> String {
    match nanoseconds {
        ..1e3 => format!("{nanoseconds:.1} ns"),
        ..1e7 => format!("{:.1} µs", nanoseconds / 1e3),
        _ => format!("{:.1} ms", nanoseconds / 1e6),
    }
}

/// A symmetric n × n matrix with a dominant diagonal.
pub fn definite(rng: &mut Rng, n: usize) -> Vec<f64> {
    let values: Vec<f64> = (0..n * n).map(|_| rng.unit()).collect();
    matrix(n, |i, j| {
        let entry = values[i.max(j) + i.min(j) * n];
        if i == j { entry + n as f64 } else { entry }
    })
}

/// A well-conditioned problem of `n` variables and `m` equalities that some point satisfies.
pub struct Problem {
    pub k: Vec<f64>,
    pub c: Vec<f64>,
    pub e: Vec<f64>,
    pub b: Vec<f64>,
    pub n: usize,
    pub m: usize,
}

impl Problem {
    pub fn new(rng: &mut Rng, n: usize, m: usize) -> Self {
        let k = definite(rng, n);
        let mut values = |count| (0..count).map(|_| rng.unit() - 0.5).collect::<Vec<_>>();
        let (c, e, point) = (values(n), values(n * m), values(n));
        let b = (0..m).map(|j| dot(&e[j * n..(j + 1) * n], &point));
        Problem {
            b: b.collect(),
            k,
            c,
            e,
            n,
            m,
        }
    }

    /// K, c, E and b.
    pub fn slices(&self) -> [&[f64]; 4] {
        [&self.k, &self.c, &self.e, &self.b]
    }
}
