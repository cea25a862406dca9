//! The four variants of the source's `CutupError` that the engine gives, from thinkjrs/cutup
//! 4029c00e74, src/error.rs (MIT), with their numbers added.

/// Why the engine gave no answer.
#[derive(Debug, Clone, Copy, PartialEq, Eq)]
pub enum CutupError {
    /// The input is finite but too extreme for a finite covariance matrix (for example, a
    /// return large enough to overflow when squared).
    NonFiniteCovariance,
    /// The covariance matrix is singular and no finite weights could be computed from it.
    SingularCovariance,
    /// The mean-variance objective has no maximum: the covariance matrix is singular, and some
    /// fully invested portfolio gains expected return without adding variance.
    Unbounded,
    /// An iterative solver stopped before reaching a solution, although one exists.
    NotConverged,
}

impl CutupError {
    /// The number of document 01's refusal table.
    pub fn number(self) -> u32 {
        match self {
            CutupError::NonFiniteCovariance => 11,
            CutupError::SingularCovariance => 12,
            CutupError::Unbounded => 13,
            CutupError::NotConverged => 14,
        }
    }
}
