//! The rules of the duty board (docs/RULES.md) in Rust, to measure the proved library against.

mod permitted;
pub mod board;
pub mod calls;
mod file;
mod records;
mod verdict;

pub use file::{read, LONGEST};
