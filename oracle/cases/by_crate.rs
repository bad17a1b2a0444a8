//! The crate as a side: its files unchanged, its errors told in 01's numbers.

use crate::answer::Side;
use crate::case::{Case, Job};
use argon2::{Algorithm, Argon2, AssociatedData, Block, Error, ParamsBuilder, Version};
use plain::{ACCEPTED, BLOCK_WORDS, Inputs, Reference};

pub struct Crate;

/// 01's number for an error of the crate. Two of its errors mean two rows each: `early` tells those of
/// `Params::new` (5 and 8) from those of a call (16 and 11).
fn number(error: Error, early: bool) -> u32 {
    match error {
        Error::AlgorithmInvalid => 1,
        Error::VersionInvalid => 2,
        Error::ThreadsTooFew => 3,
        Error::ThreadsTooMany => 4,
        Error::MemoryTooLittle if early => 5,
        Error::MemoryTooMuch => 6,
        Error::TimeTooSmall => 7,
        Error::OutputTooShort if early => 8,
        Error::AdTooLong => 9,
        Error::SecretTooLong => 10,
        Error::OutputTooShort => 11,
        Error::OutputTooLong => 12,
        Error::PwdTooLong => 13,
        Error::SaltTooShort => 14,
        Error::SaltTooLong => 15,
        Error::MemoryTooLittle => 16,
        Error::B64Encoding(_) | Error::KeyIdTooLong | Error::OutOfMemory => unreachable!(),
    }
}

/// The crate's context: version, parameters, data and secret, asked for in 01's order. The crate names its
/// algorithms and takes no number for them, so for a number over 2 the 1 is ours.
fn context<'a>(job: &Job, inputs: &Inputs<'a>) -> Result<Argon2<'a>, Error> {
    let algorithms = [Algorithm::Argon2d, Algorithm::Argon2i, Algorithm::Argon2id];
    let algorithm = *algorithms.get(job.algorithm as usize).ok_or(Error::AlgorithmInvalid)?;
    let version = Version::try_from(job.version)?;
    let mut builder = ParamsBuilder::new();
    builder.m_cost(job.memory).t_cost(job.passes).p_cost(job.lanes);
    if let Some(length) = job.configured {
        builder.output_len(length as usize);
    }
    builder.build()?;
    let params = builder.data(AssociatedData::new(inputs.data)?).build()?;
    // No secret and an empty one are the same: the seed's parity chooses which of the two is asked.
    if inputs.secret.is_empty() && job.seed.is_multiple_of(2) {
        return Ok(Argon2::new(algorithm, version, params));
    }
    Argon2::new_with_secret(inputs.secret, algorithm, version, params)
}

/// Makes a context, then calls with the lent words as blocks; words after the last whole block are not lent.
fn called(
    job: &Job,
    inputs: &Inputs,
    words: &mut [u64],
    call: impl FnOnce(Argon2, &mut [Block]) -> Result<(), Error>,
) -> u32 {
    let context = match context(job, inputs) {
        Ok(context) => context,
        Err(error) => return number(error, true),
    };
    let mut blocks = vec![Block::new(); words.len() / BLOCK_WORDS];
    for (block, words) in blocks.iter_mut().zip(words.chunks_exact(BLOCK_WORDS)) {
        block.as_mut().copy_from_slice(words);
    }
    let answer = call(context, &mut blocks).map_or_else(|error| number(error, false), |()| ACCEPTED);
    for (block, words) in blocks.iter().zip(words.chunks_exact_mut(BLOCK_WORDS)) {
        words.copy_from_slice(block.as_ref());
    }
    answer
}

impl Side for Crate {
    fn hash(&self, job: &Job, inputs: &Inputs, words: &mut [u64], out: &mut [u8]) -> u32 {
        called(job, inputs, words, |context, blocks| {
            context.hash_password_into_with_memory(inputs.password, inputs.salt, out, blocks)
        })
    }

    fn fill(&self, job: &Job, inputs: &Inputs, words: &mut [u64]) -> u32 {
        called(job, inputs, words, |context, blocks| {
            context.fill_memory(inputs.password, inputs.salt, blocks)
        })
    }

    fn long(&self, input: &[u8], out: &mut [u8]) -> u32 {
        match inner::blake2b_long(&[input], out) {
            Ok(()) => ACCEPTED,
            Err(inner::Error::OutputTooShort) => 11,
            Err(inner::Error::OutputTooLong) => 12,
            Err(_) => unreachable!(),
        }
    }

    fn position(&self, _: &Case) -> Option<Reference> {
        None
    }
}
