//! Compares the proved archive with a second implementation, written from the paper alone.

#[cfg(test)]
mod agreement;
pub mod bench;
pub mod compare;
pub mod corners;
pub mod examples;
pub mod generate;
pub mod lent;
pub mod program;
pub mod reference;
pub mod rng;
pub mod tuned;
