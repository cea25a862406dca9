//! Seeded cases with the reference's answers.

pub mod algebra;
pub mod attempt;
pub mod block;
pub mod block_lists;
pub mod caps;
pub mod code;
pub mod damage;
pub mod engine;
pub mod factor;
pub mod families;
pub mod known;
pub mod lists;
pub mod made;
pub mod scale;
pub mod slips;

/// The n × n matrix of `entry`, column after column.
pub(crate) fn matrix(n: usize, entry: impl Fn(usize, usize) -> f64) -> Vec<f64> {
    (0..n)
        .flat_map(|j| (0..n).map(move |i| (i, j)))
        .map(|(i, j)| entry(i, j))
        .collect()
}
