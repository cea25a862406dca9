//! Known slips of this trade, which tests make on purpose to show that their cases tell the
//! engine from one with the slip. Outside such a test none is made.

/// A slip in `qp.rs`.
#[derive(Debug, Clone, Copy, PartialEq, Eq)]
pub(crate) enum Slip {
    /// Measuring the full step's 1e-12 tolerance over the slacks' targets as well as the words'.
    ToleranceOverTargets,
    /// Measuring it over all of the point, slacks included.
    ToleranceOverPoint,
    /// Clearing the refused marks when a step of length 0 is stopped.
    RefusedCleared,
    /// Taking the first of equal largest rates.
    FirstOfEqualRates,
}

#[cfg(not(test))]
pub(crate) fn slipped(_: Slip) -> bool {
    false
}

#[cfg(test)]
pub(crate) use made::{slipped, slipping};

#[cfg(test)]
mod made {
    use super::Slip;
    use std::cell::Cell;

    thread_local! {
        static MADE: Cell<Option<Slip>> = const { Cell::new(None) };
    }

    pub(crate) fn slipped(slip: Slip) -> bool {
        MADE.get() == Some(slip)
    }

    /// What `call` gives while the engine makes `slip`.
    pub(crate) fn slipping<T>(slip: Slip, call: impl FnOnce() -> T) -> T {
        MADE.set(Some(slip));
        let answer = call();
        MADE.set(None);
        answer
    }
}
