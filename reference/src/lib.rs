//! The reference build: a copy of the source's two Rust files over a small matrix module, and
//! an independent block reader, service and check.

pub mod answer;
pub mod bench;
pub mod block;
pub mod cases;
pub mod check;
pub mod compare;
mod eigen;
pub mod engine;
mod error;
pub mod exact;
pub mod kernels;
#[cfg(feature = "library")]
pub mod library;
mod matrix;
mod qp;
pub mod refusal;
pub mod rng;
pub mod service;
mod slips;
pub mod text;

pub use error::CutupError;
