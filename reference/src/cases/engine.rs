//! Cases of the four calls of the engine, and their records.

use super::code::{Decoder, Encoder, same};
use crate::engine::{self, Capped, Kkt, Problem, Solved};

/// A call of the engine.
#[derive(Debug, Clone, Copy, PartialEq, Eq, PartialOrd, Ord)]
pub enum Call {
    Kkt,
    Bounded,
    Piecewise,
    Capped,
}

/// The outcome of [`engine::solve_kkt`] that says there is no optimum.
pub const NO_OPTIMUM: u32 = 100;

/// The inputs of a call. Each call takes its part of them.
#[derive(Debug, Clone)]
pub struct Case {
    pub family: &'static str,
    pub n: usize,
    pub m: usize,
    pub r: usize,
    pub q: Vec<f64>,
    pub c: Vec<f64>,
    pub e: Vec<f64>,
    pub b: Vec<f64>,
    pub lower: Vec<f64>,
    pub upper: Vec<f64>,
    pub a: Vec<f64>,
    pub row_lower: Vec<f64>,
    pub row_upper: Vec<f64>,
    pub at: Vec<f64>,
    pub slopes: Vec<f64>,
    pub start: Vec<f64>,
    pub cap: f64,
}

/// What a call gave. A part that the call doesn't have, or that a refusal leaves out, is empty.
#[derive(Debug, Clone)]
pub struct Outcome {
    /// 0, [`NO_OPTIMUM`] or the refusal.
    pub number: u32,
    pub x: Vec<f64>,
    pub multipliers: Vec<f64>,
    pub passes: u64,
    pub raise: f64,
}

impl Outcome {
    /// An outcome with nothing but its number.
    pub fn refusal(number: u32) -> Self {
        Outcome {
            number,
            x: Vec::new(),
            multipliers: Vec::new(),
            passes: 0,
            raise: 0.0,
        }
    }

    /// Whether two outcomes agree, any two NaNs being the same.
    pub fn agrees(&self, other: &Outcome) -> bool {
        let all_same =
            |a: &[f64], b: &[f64]| a.len() == b.len() && a.iter().zip(b).all(|(&a, &b)| same(a, b));
        self.number == other.number
            && all_same(&self.x, &other.x)
            && all_same(&self.multipliers, &other.multipliers)
            && self.passes == other.passes
            && same(self.raise, other.raise)
    }
}

impl From<Result<Option<Kkt>, u32>> for Outcome {
    fn from(result: Result<Option<Kkt>, u32>) -> Self {
        match result {
            Ok(Some(Kkt { x, multipliers })) => Outcome {
                x,
                multipliers,
                ..Outcome::refusal(0)
            },
            Ok(None) => Outcome::refusal(NO_OPTIMUM),
            Err(number) => Outcome::refusal(number),
        }
    }
}

impl From<Result<Solved, u32>> for Outcome {
    fn from(result: Result<Solved, u32>) -> Self {
        match result {
            Ok(solved) => Outcome {
                number: 0,
                x: solved.x,
                multipliers: solved.multipliers,
                passes: solved.passes,
                raise: 0.0,
            },
            Err(number) => Outcome::refusal(number),
        }
    }
}

impl From<Result<Capped, u32>> for Outcome {
    fn from(result: Result<Capped, u32>) -> Self {
        match result {
            Ok(Capped { solved, raise }) => Outcome {
                raise,
                ..Ok(solved).into()
            },
            Err(number) => Outcome::refusal(number),
        }
    }
}

impl Case {
    pub fn problem(&self) -> Problem<'_> {
        Problem {
            q: &self.q,
            c: &self.c,
            e: &self.e,
            b: &self.b,
            lower: &self.lower,
            upper: &self.upper,
            a: &self.a,
            row_lower: &self.row_lower,
            row_upper: &self.row_upper,
            n: self.n,
            m: self.m,
            r: self.r,
        }
    }

    /// The reference's outcome.
    pub fn run(&self, call: Call) -> Outcome {
        let (p, start) = (&self.problem(), &self.start);
        match call {
            Call::Kkt => {
                engine::solve_kkt(&self.q, &self.c, &self.e, &self.b, self.n, self.m).into()
            }
            Call::Bounded => engine::solve_bounded(p, start).into(),
            Call::Piecewise => engine::solve_piecewise(p, &self.at, &self.slopes, start).into(),
            Call::Capped => {
                engine::solve_turnover_capped(p, &self.at, &self.slopes, start, self.cap).into()
            }
        }
    }

    /// The slices of `call`, in the order of its parameters.
    pub(super) fn slices(&mut self, call: Call) -> Vec<&mut Vec<f64>> {
        let mut slices = vec![&mut self.q, &mut self.c, &mut self.e, &mut self.b];
        if call != Call::Kkt {
            slices.extend([
                &mut self.lower,
                &mut self.upper,
                &mut self.a,
                &mut self.row_lower,
                &mut self.row_upper,
            ]);
            if call != Call::Bounded {
                slices.extend([&mut self.at, &mut self.slopes]);
            }
            slices.push(&mut self.start);
        }
        slices
    }

    /// The body of this case's record, its outcome included.
    pub fn encode(&self, call: Call, outcome: &Outcome) -> Vec<u8> {
        let mut body = Encoder::default();
        body.byte(call as usize);
        body.byte(self.n);
        body.byte(self.m);
        body.byte(self.r);
        for slice in self.clone().slices(call) {
            body.slice(slice);
        }
        if call == Call::Capped {
            body.float(self.cap);
        }
        body.byte(outcome.number as usize);
        if outcome.number == 0 {
            body.slice(&outcome.x);
            body.slice(&outcome.multipliers);
            if call != Call::Kkt {
                body.u32(outcome.passes);
            }
            if call == Call::Capped {
                body.float(outcome.raise);
            }
        }
        body.bytes
    }

    /// The case and the outcome of a record's body.
    pub fn decode(mut body: Decoder) -> (Call, Case, Outcome) {
        let call = [Call::Kkt, Call::Bounded, Call::Piecewise, Call::Capped][body.byte()];
        let mut case = Case::empty("read");
        (case.n, case.m, case.r) = (body.byte(), body.byte(), body.byte());
        for slice in case.slices(call) {
            *slice = body.slice();
        }
        if call == Call::Capped {
            case.cap = body.float();
        }
        let mut outcome = Outcome::refusal(body.byte() as u32);
        if outcome.number == 0 {
            outcome.x = body.slice();
            outcome.multipliers = body.slice();
            if call != Call::Kkt {
                outcome.passes = body.u32();
            }
            if call == Call::Capped {
                outcome.raise = body.float();
            }
        }
        assert!(body.at_end(), "bytes after a record's outcome");
        (call, case, outcome)
    }

    /// No variables, equalities or rows.
    pub fn empty(family: &'static str) -> Self {
        Case {
            family,
            n: 0,
            m: 0,
            r: 0,
            q: Vec::new(),
            c: Vec::new(),
            e: Vec::new(),
            b: Vec::new(),
            lower: Vec::new(),
            upper: Vec::new(),
            a: Vec::new(),
            row_lower: Vec::new(),
            row_upper: Vec::new(),
            at: Vec::new(),
            slopes: Vec::new(),
            start: Vec::new(),
            cap: 0.0,
        }
    }
}
