//! The plain copy as a side.

use crate::answer::Side;
use crate::case::{Case, Job};
use plain::{Inputs, Params, Reference};

pub struct Plain;

impl Side for Plain {
    fn hash(&self, job: &Job, inputs: &Inputs, words: &mut [u64], out: &mut [u8]) -> u32 {
        plain::hash(&job.params(), inputs, words, out)
    }

    fn fill(&self, job: &Job, inputs: &Inputs, words: &mut [u64]) -> u32 {
        plain::fill_memory(&job.params(), inputs, words)
    }

    fn long(&self, input: &[u8], out: &mut [u8]) -> u32 {
        plain::blake2b_long(&[input], out)
    }

    fn position(&self, case: &Case) -> Option<Reference> {
        let Case::Position { lanes, memory, passes, place, word } = *case else { return None };
        let params =
            Params { algorithm: Params::D, version: Params::RFC, memory, passes, lanes, configured: None };
        Some(plain::reference_position(&params, place, word))
    }

    fn step(&self, job: &plain::Job, words: &mut [u64], lane: u32) -> Option<(u32, plain::Job)> {
        Some(plain::step(job, words, lane))
    }

    fn finish(&self, job: &plain::Job, words: &[u64], out: &mut [u8]) -> Option<u32> {
        Some(plain::finish(job, words, out))
    }
}
