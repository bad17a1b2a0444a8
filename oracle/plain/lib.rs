//! Argon2 as document 01 tells it, in plain Rust with no dependency: the oracle that is always at hand.
//! Each file is one chapter of 01. Nothing here is fast on purpose, and nothing is taken from the crate.

mod answer;
mod argon2;
pub mod blake2b;
mod blake2b_long;
mod block;
mod job;
mod params;
mod position;
mod program;
#[cfg(test)]
mod tests;

pub use answer::{ACCEPTED, Answer};
pub use argon2::{Inputs, fill_memory, hash};
pub use blake2b_long::blake2b_long;
pub use block::{BLOCK_WORDS, Block, compress};
pub use job::{Job, POSITIONS, finish, start, step};
pub use params::Params;
pub use position::{Place, Reference, reference_position};
pub use program::line;
