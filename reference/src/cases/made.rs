//! Cases made on purpose: document 01's own, cases that tell the slips of this trade apart, and
//! problems on which the passes run out. Each call takes its part of every one.

use super::engine::Case;

/// The name of the group of cases that tell slips apart.
pub const SLIPS: &str = "made: slips";

/// Every case made on purpose.
pub fn cases() -> Vec<Case> {
    let mut cases = vec![
        known_block(10.0),
        known_block(100.0),
        fixed_word(9.0),
        fixed_word(10.0),
        anchored_word(6.0),
        anchored_word(5.0),
        tolerance_over_slacks(),
        refused_cleared(),
        first_of_equal_rates(),
    ];
    cases.extend(passes_run_out());
    cases
}

fn one_word(family: &'static str) -> Case {
    Case {
        n: 1,
        q: vec![1.0],
        c: vec![70.0],
        slopes: vec![0.0],
        ..Case::empty(family)
    }
}

/// Document 01's known block: window 0 to 100, key 40, start 0, target 70.
fn known_block(cap: f64) -> Case {
    Case {
        lower: vec![0.0],
        upper: vec![100.0],
        at: vec![40.0],
        start: vec![0.0],
        cap,
        ..one_word("made: known")
    }
}

/// Window 50 to 50, key 40: a cap of 9 can't be kept.
fn fixed_word(cap: f64) -> Case {
    Case {
        lower: vec![50.0],
        upper: vec![50.0],
        at: vec![40.0],
        start: vec![50.0],
        cap,
        ..one_word("made: known")
    }
}

/// Window 5 to 5, key 5, with an anchor: 6 can't be kept, 5 takes one pass.
fn anchored_word(value: f64) -> Case {
    Case {
        m: 1,
        e: vec![1.0],
        b: vec![value],
        lower: vec![5.0],
        upper: vec![5.0],
        at: vec![5.0],
        start: vec![5.0],
        cap: 10.0,
        ..one_word("made: known")
    }
}

/// Eight words near 1, the first of which wants to be 3e-12 above its upper end: over the words'
/// tolerance of 1e-12, but within one measured over the row's slack, which starts at 4 and goes
/// to 8.
fn tolerance_over_slacks() -> Case {
    let n = 8;
    let mut q = vec![0.0; n * n];
    for i in 0..n {
        q[i + i * n] = 1.0;
    }
    let mut c = vec![1.0; n];
    c[0] += 3e-12;
    let mut upper = vec![2.0; n];
    upper[0] = 1.0;
    Case {
        n,
        r: 1,
        q,
        c,
        lower: vec![0.0; n],
        upper,
        a: vec![1.0; n],
        row_lower: vec![0.0],
        row_upper: vec![100.0],
        at: vec![0.0; n],
        slopes: vec![0.0; n],
        start: vec![0.5; n],
        cap: 100.0,
        ..Case::empty(SLIPS)
    }
}

/// A start far outside its window: a released word is stopped at once and refused, and has to
/// stay refused when the next step of length 0 is stopped.
fn refused_cleared() -> Case {
    Case {
        n: 3,
        r: 1,
        q: vec![14.0, 4.0, 0.0, 4.0, 6.0, 1.0, 0.0, 1.0, 2.0],
        c: vec![-3.0, 4.0, 3.0],
        lower: vec![-5.0, 4.0, -6.0],
        upper: vec![15.0, 11.0, 17.0],
        a: vec![2.0, 0.0, -2.0],
        row_lower: vec![-18.0],
        row_upper: vec![-10.0],
        at: vec![0.0, 10.0, 3.0],
        slopes: vec![0.0; 3],
        start: vec![3.0, 8.0, -33.0],
        cap: 100.0,
        ..Case::empty(SLIPS)
    }
}

/// Two held words with the same rate: releasing the last of them takes four passes, releasing the
/// first, whose window is narrower, five.
fn first_of_equal_rates() -> Case {
    Case {
        n: 3,
        m: 1,
        q: vec![1.0, 0.0, 0.0, 0.0, 1.0, 0.0, 0.0, 0.0, 1.0],
        c: vec![5.0, 5.0, 0.0],
        e: vec![1.0; 3],
        b: vec![1.0],
        lower: vec![0.0; 3],
        upper: vec![0.5, 2.0, 2.0],
        at: vec![0.0, 0.0, 1.0],
        slopes: vec![0.0; 3],
        start: vec![0.0, 0.0, 1.0],
        cap: 100.0,
        ..Case::empty(SLIPS)
    }
}

/// Matrices that aren't symmetric, on which the engine goes round until its passes run out.
fn passes_run_out() -> [Case; 4] {
    let three = |q: [f64; 9], c: [f64; 3], upper: [f64; 3], start: [f64; 3]| Case {
        n: 3,
        q: q.to_vec(),
        c: c.to_vec(),
        lower: vec![0.0; 3],
        upper: upper.to_vec(),
        at: vec![0.0; 3],
        slopes: vec![0.0; 3],
        start: start.to_vec(),
        cap: 100.0,
        ..Case::empty("made: passes run out")
    };
    let kinked = |case: Case, at: [f64; 3], slopes: [f64; 3]| Case {
        at: at.to_vec(),
        slopes: slopes.to_vec(),
        ..case
    };
    [
        three(
            [1.0, -1.0, 4.0, 5.0, 1.0, 2.0, -6.0, 0.0, 1.0],
            [8.0, 3.0, 8.0],
            [2.0, 4.0, 4.0],
            [2.0, 1.0, 0.0],
        ),
        Case {
            n: 4,
            q: vec![
                4.0, -4.0, 0.0, -1.0, 2.0, 1.0, -3.0, -5.0, -2.0, -4.0, 9.0, -5.0, -2.0, 5.0, 0.0,
                4.0,
            ],
            c: vec![1.0, 0.0, 5.0, 7.0],
            lower: vec![0.0; 4],
            upper: vec![3.0, 4.0, 2.0, 1.0],
            at: vec![0.0; 4],
            slopes: vec![0.0; 4],
            start: vec![1.0, 0.0, 0.0, 1.0],
            cap: 100.0,
            ..Case::empty("made: passes run out")
        },
        kinked(
            three(
                [1.0, -5.0, 2.0, 0.0, 1.0, -3.0, -5.0, 6.0, 1.0],
                [4.0, -6.0, 5.0],
                [4.0, 5.0, 4.0],
                [4.0, 4.0, 3.0],
            ),
            [4.0, 2.0, 1.0],
            [2.0, 0.0, 5.0],
        ),
        kinked(
            three(
                [1.0, 5.0, -6.0, -5.0, 1.0, 5.0, -1.0, 5.0, 9.0],
                [3.0, 8.0, 4.0],
                [3.0, 5.0, 5.0],
                [3.0, 2.0, 0.0],
            ),
            [0.0, 4.0, 2.0],
            [4.0, 1.0, 2.0],
        ),
    ]
}

#[cfg(test)]
mod tests {
    use super::*;
    use crate::cases::engine::Call;
    use crate::slips::{Slip, slipping};

    #[test]
    fn known_blocks() {
        let capped = known_block(10.0).run(Call::Capped);
        assert_eq!((capped.number, capped.passes), (0, 2));
        assert_eq!((capped.x, capped.raise), (vec![50.0], 20.0));
        assert_eq!(fixed_word(9.0).run(Call::Capped).number, 14);
        assert_eq!(fixed_word(10.0).run(Call::Capped).x, [50.0]);
        assert_eq!(anchored_word(6.0).run(Call::Capped).number, 12);
        let anchored = anchored_word(5.0).run(Call::Capped);
        assert_eq!((anchored.number, anchored.passes), (0, 1));
        assert_eq!(anchored.multipliers, [0.0]);
    }

    /// The outcome of `case`, and that the slip changes it.
    fn told_apart(case: &Case, slip: Slip) -> (u32, u64, u32, u64) {
        let right = case.run(Call::Bounded);
        let wrong = slipping(slip, || case.run(Call::Bounded));
        assert!(!right.agrees(&wrong), "{slip:?} changes nothing");
        (right.number, right.passes, wrong.number, wrong.passes)
    }

    #[test]
    fn slips_are_told_apart() {
        let case = tolerance_over_slacks();
        assert_eq!(told_apart(&case, Slip::ToleranceOverTargets), (0, 2, 0, 1));
        assert_eq!(told_apart(&case, Slip::ToleranceOverPoint), (0, 2, 0, 1));
        let refused = told_apart(&refused_cleared(), Slip::RefusedCleared);
        assert_eq!(refused, (0, 7, 14, 0));
        let rates = told_apart(&first_of_equal_rates(), Slip::FirstOfEqualRates);
        assert_eq!(rates, (0, 4, 0, 5));
    }

    #[test]
    fn going_round_without_end_is_14() {
        let [bounded, longer, ..] = passes_run_out();
        assert_eq!(bounded.run(Call::Bounded).number, 14);
        assert_eq!(longer.run(Call::Bounded).number, 14);
        let [.., first, second] = passes_run_out();
        assert_eq!(first.run(Call::Piecewise).number, 14);
        assert_eq!(second.run(Call::Piecewise).number, 14);
    }
}
