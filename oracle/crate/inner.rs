//! The crate's variable-length hash, which the crate itself keeps to itself: its file, unchanged, under
//! another root. The build lays this file beside a copy of the crate's files.

mod blake2b_long;
mod error;

pub use blake2b_long::blake2b_long;
pub use error::{Error, Result};
