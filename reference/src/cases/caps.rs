//! Caps for the capped call at scale: beside the one that a case is made with, those at which the
//! search for a raise may go either way.

use super::engine::{Call, Case};
use crate::matrix::SumFromZero;
use crate::qp::sum_rounding;
use crate::rng::Rng;

/// A cap's name, how many of a thousand cases have it, and the cap. 'Moves' are those of the plan
/// without a cap. One out of reach costs about a thousand solves, so these are few.
type Cap = (&'static str, usize, fn(&Case) -> f64);

const CAPS: [Cap; 12] = [
    ("as made", 350, |case| case.cap),
    ("0", 60, |_| 0.0),
    ("moves", 120, moves),
    ("moves, a float up", 105, |case| moves(case).next_up()),
    ("moves, a float down", 105, |case| moves(case).next_down()),
    ("moves less rounding", 60, less_rounding),
    ("moves less rounding, a float down", 60, |case| {
        less_rounding(case).next_down()
    }),
    ("moves less twice rounding", 60, |case| {
        moves(case) - 2.0 * rounding(case)
    }),
    ("infinite", 65, |_| f64::INFINITY),
    ("-1", 5, |_| -1.0),
    ("minus infinite", 5, |_| f64::NEG_INFINITY),
    ("NaN", 5, |_| f64::NAN),
];

/// The case with one of these caps, and the cap's name.
pub fn capped(mut case: Case, seed: u64, number: u64) -> (Case, &'static str) {
    // Another generator than the one that made the case.
    let mut rng = Rng::of_case(!seed, number);
    let (name, _, cap) = CAPS
        .iter()
        .flat_map(|cap| std::iter::repeat_n(cap, cap.1))
        .nth(rng.below(1_000))
        .expect("shares of a thousand");
    case.cap = cap(&case);
    (case, name)
}

/// The moves of the plan without a cap, added up as the search does; the cap that the case was
/// made with where there is no such plan.
fn moves(case: &Case) -> f64 {
    match plan(case) {
        Some(x) => {
            let moves = x.iter().zip(&case.at).map(|(x, at)| (x - at).abs());
            moves.sum_from_zero()
        }
        None => case.cap,
    }
}

/// By how much moves above the cap still count as at it.
fn rounding(case: &Case) -> f64 {
    let largest = plan(case).map_or(1.0, |x| x.iter().fold(1.0, |m, x| x.abs().max(m)));
    sum_rounding(case.n, largest)
}

fn less_rounding(case: &Case) -> f64 {
    moves(case) - rounding(case)
}

fn plan(case: &Case) -> Option<Vec<f64>> {
    let outcome = case.run(Call::Piecewise);
    (outcome.number == 0).then_some(outcome.x)
}

#[cfg(test)]
mod tests {
    use super::super::families::{Generator, Style};
    use super::super::lists::Counts;
    use super::*;

    #[test]
    fn shares_of_a_thousand() {
        assert_eq!(CAPS.iter().map(|cap| cap.1).sum::<usize>(), 1_000);
    }

    /// 'Within rounding of the cap counts as at it': which caps the plan without one meets.
    #[test]
    fn caps_go_either_way() {
        let (mut met, mut missed) = (Counts::default(), Counts::default());
        for number in 0..4_000 {
            let case = Generator::case(Style::Compact, Call::Capped, 5, number);
            let (case, name) = capped(case, 5, number);
            if plan(&case).is_some() && moves(&case) > 0.0 {
                let outcome = case.run(Call::Capped);
                match outcome.number == 0 && outcome.raise == 0.0 {
                    true => met.add(name, 0),
                    false => missed.add(name, outcome.number),
                }
            }
        }
        for name in [
            "moves",
            "moves, a float up",
            "moves, a float down",
            "infinite",
        ] {
            assert!(met.of(name, 0) > 0 && missed.of(name, 14) == 0, "{name}");
        }
        assert!(met.of("moves less rounding", 0) > 0);
        assert!(missed.of("moves less rounding, a float down", 0) > 0);
        for name in ["moves less twice rounding", "-1", "minus infinite", "NaN"] {
            assert!(met.of(name, 0) == 0 && missed.of(name, 14) > 0, "{name}");
        }
    }
}
