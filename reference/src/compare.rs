//! Comparison of a library's calls with the reference, at scale.

use crate::cases::caps::capped;
use crate::cases::engine::{Call, Case, Outcome};
use crate::cases::families::{Generator, Style};
use crate::cases::lists::Counts;
use crate::engine::WRONG_SHAPE;

/// What the places that a call writes hold beforehand.
const FILLING: u64 = 0x5a17_c3d2_96e4_08bf;

/// The places that a call writes, filled with a pattern so that what is written can be told.
pub struct Written {
    pub x: Vec<f64>,
    pub multipliers: Vec<f64>,
    pub passes: u64,
    pub raise: f64,
}

impl Written {
    pub fn new(x: usize, multipliers: usize) -> Self {
        let filling = f64::from_bits(FILLING);
        Written {
            x: vec![filling; x],
            multipliers: vec![filling; multipliers],
            passes: FILLING,
            raise: filling,
        }
    }

    fn untouched(&self) -> bool {
        let floats = self.x.iter().chain(&self.multipliers).chain([&self.raise]);
        floats.copied().all(|v| v.to_bits() == FILLING) && self.passes == FILLING
    }

    /// The outcome of a call that gave `number`. A refusal that wrote shows what it wrote.
    fn outcome(self, call: Call, number: u32) -> Outcome {
        if number != 0 && self.untouched() {
            return Outcome::refusal(number);
        }
        Outcome {
            number,
            x: self.x,
            multipliers: self.multipliers,
            passes: if call == Call::Kkt { 0 } else { self.passes },
            raise: if call == Call::Capped {
                self.raise
            } else {
                0.0
            },
        }
    }
}

/// A library's call: it writes its answer and gives its number.
pub type Library = fn(&Case, &mut Written) -> u32;

/// The outcome of the library on `case`, with `longer` more places to write in than asked for.
fn outcome(call: Call, library: Library, case: &Case, longer: [usize; 2]) -> Outcome {
    let multipliers = match call {
        Call::Kkt => case.m,
        _ => case.m + case.r,
    };
    let mut written = Written::new(case.n + longer[0], multipliers + longer[1]);
    let number = library(case, &mut written);
    written.outcome(call, number)
}

/// Two numbers from the command line: the seed and how many cases.
pub fn arguments() -> (u64, u64) {
    let numbers: Vec<u64> = std::env::args()
        .skip(1)
        .map(|argument| argument.parse().expect("a seed and a count"))
        .collect();
    match numbers[..] {
        [seed, count] => (seed, count),
        _ => panic!("usage: SEED COUNT"),
    }
}

/// The style of case `number`: of every size for three quarters of the cases, but for an eighth of
/// the capped ones, each of which takes up to a thousand solves.
fn style(call: Call, number: u64) -> Style {
    let wide = match call {
        Call::Capped => (number >> 5) % 8 == 0,
        _ => (number >> 5) % 4 != 0,
    };
    match wide {
        true => Style::Wide,
        false => Style::Compact,
    }
}

/// Runs `call` on as many cases as the command line asks for, in both styles, and prints what
/// they give, by family and by cap, and the first difference. Ends with status 1 if there is one.
pub fn engine(call: Call, library: Library) {
    let (seed, count) = arguments();
    let (mut counts, mut caps) = (Counts::default(), Counts::default());
    let mut differences = 0;
    for number in 0..count {
        let style = style(call, number);
        let made = Generator::case(style, call, seed, number);
        let (case, cap) = match call {
            Call::Capped => capped(made, seed, number),
            _ => (made, "none"),
        };
        let expected = case.run(call);
        counts.add(case.family, expected.number);
        caps.add(cap, expected.number);
        let mut found = vec![(outcome(call, library, &case, [0, 0]), &expected)];
        // A place to write in whose length the counts don't give is a wrong shape too.
        let refused = Outcome::refusal(WRONG_SHAPE);
        if number % 17 == 1 {
            found.push((outcome(call, library, &case, [1, 0]), &refused));
            found.push((outcome(call, library, &case, [0, 1]), &refused));
        }
        for (given, expected) in found {
            if !given.agrees(expected) {
                differences += 1;
                if differences == 1 {
                    println!("seed {seed}, case {number}, {style:?}:\n{case:#?}");
                    println!("reference: {expected:?}\nlibrary:   {given:?}\n");
                }
            }
        }
    }
    println!("{}", counts.table());
    if call == Call::Capped {
        println!("{}", caps.table());
    }
    println!("{count} cases of {call:?} from seed {seed}: {differences} differ");
    if differences > 0 {
        std::process::exit(1);
    }
}
