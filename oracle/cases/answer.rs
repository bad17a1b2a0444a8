//! What a call left behind, and its line in the protocol.

use crate::case::{Bytes, Case, Job, commas, hex, zeros};
use plain::{Inputs, Reference, blake2b_long};

/// The longest output that is filled with the pattern before the call and looked at after a refusal.
const LOOKED_AT: usize = 65_536;

/// The answer to a case that this side cannot be asked.
pub const SKIPPED: &str = "skip - -";

/// The answer of a side that panicked.
pub const PANICKED: &str = "panic - -";

/// Word `i` of the pattern that a seed names (splitmix64); seed 0 is zeros.
pub fn pattern(seed: u64, i: usize) -> u64 {
    if seed == 0 {
        return 0;
    }
    let z = seed.wrapping_add((i as u64 + 1).wrapping_mul(0x9e37_79b9_7f4a_7c15));
    let z = (z ^ (z >> 30)).wrapping_mul(0xbf58_476d_1ce4_e5b9);
    let z = (z ^ (z >> 27)).wrapping_mul(0x94d0_49bb_1331_11eb);
    z ^ (z >> 31)
}

/// An output before the call: byte `i` is the low byte of the pattern's word `i`.
fn lent_output(length: usize, seed: u64) -> Option<Vec<u8>> {
    let mut out = zeros(length)?;
    if length <= LOOKED_AT {
        out.iter_mut().enumerate().for_each(|(i, byte)| *byte = pattern(seed, i) as u8);
    }
    Some(out)
}

/// The output's field: hex if accepted, `-` if refused and unchanged, `touched` if refused and changed.
fn output_field(answer: u32, out: &[u8], seed: u64) -> String {
    if answer == plain::ACCEPTED {
        return hex(out);
    }
    let same = |(i, byte): (usize, &u8)| *byte == pattern(seed, i) as u8;
    let unchanged = out.len() > LOOKED_AT || out.iter().enumerate().all(same);
    if unchanged { "-".into() } else { "touched".into() }
}

/// The words' field: the variable-length hash, 32 bytes, of the words little-endian.
fn digest_field(words: &[u64]) -> String {
    let bytes: Vec<u8> = words.iter().flat_map(|word| word.to_le_bytes()).collect();
    let mut digest = [0; 32];
    blake2b_long(&[&bytes], &mut digest);
    hex(&digest)
}

/// One side that can be asked.
pub trait Side {
    /// The whole hash over these words and this output.
    fn hash(&self, job: &Job, inputs: &Inputs, words: &mut [u64], out: &mut [u8]) -> u32;
    /// The filling over these words.
    fn fill(&self, job: &Job, inputs: &Inputs, words: &mut [u64]) -> u32;
    /// The variable-length hash.
    fn long(&self, input: &[u8], out: &mut [u8]) -> u32;
    /// The reference position, where it can be asked for one alone.
    fn position(&self, case: &Case) -> Option<Reference>;
    /// A step, where it has one.
    fn step(&self, _: &plain::Job, _: &mut [u64], _: u32) -> Option<(u32, plain::Job)> {
        None
    }
    /// A finish, where it has one.
    fn finish(&self, _: &plain::Job, _: &[u64], _: &mut [u8]) -> Option<u32> {
        None
    }
}

/// Words that hold a pattern.
fn lent_words(count: usize, seed: u64) -> Vec<u64> {
    (0..count).map(|i| pattern(seed, i)).collect()
}

/// A step's answer, the job that it hands back, and the words.
fn step_line(side: &dyn Side, job: &plain::Job, words: usize, seed: u64, lane: u32) -> Option<String> {
    let mut words = lent_words(words, seed);
    let (answer, next) = side.step(job, &mut words, lane)?;
    assert_eq!((next.params, next.tag), (job.params, job.tag));
    let job = format!("{},{},{}", next.pass, next.slice, commas(&next.positions));
    Some(format!("{answer} {job} {}", digest_field(&words)))
}

/// A finish's answer, the output, and the words.
fn finish_line(side: &dyn Side, job: &plain::Job, words: usize, seed: u64, length: usize) -> Option<String> {
    let (words, mut out) = (lent_words(words, seed), lent_output(length, seed)?);
    let answer = side.finish(job, &words, &mut out)?;
    Some(format!("{answer} {} {}", output_field(answer, &out, seed), digest_field(&words)))
}

/// Lends memory, output and inputs for a job, calls, and tells what is left; none where they cannot be had.
fn job_line(side: &dyn Side, job: &Job, whole: bool) -> Option<String> {
    let had = |bytes: &Bytes| bytes.had();
    let (password, salt) = (had(&job.password)?, had(&job.salt)?);
    let (secret, data) = (had(&job.secret)?, had(&job.data)?);
    let inputs = Inputs { password: &password, salt: &salt, secret: &secret, data: &data };
    let mut words = lent_words(job.words, job.seed);
    let (answer, output) = if whole {
        let mut out = lent_output(job.tag, job.seed)?;
        let answer = side.hash(job, &inputs, &mut words, &mut out);
        (answer, output_field(answer, &out, job.seed))
    } else {
        (side.fill(job, &inputs, &mut words), "-".into())
    };
    Some(format!("{answer} {output} {}", digest_field(&words)))
}

/// The same for the variable-length hash.
fn long_line(side: &dyn Side, length: usize, seed: u64, input: &Bytes) -> Option<String> {
    let (input, mut out) = (input.had()?, lent_output(length, seed)?);
    let answer = side.long(&input, &mut out);
    Some(format!("{answer} {} -", output_field(answer, &out, seed)))
}

/// The answer line of a side; a panic is an answer of its own.
pub fn line(side: &dyn Side, case: &Case) -> String {
    let asked = std::panic::AssertUnwindSafe(|| answered(side, case));
    let line = std::panic::catch_unwind(asked).unwrap_or_else(|_| Some(PANICKED.into()));
    line.unwrap_or_else(|| SKIPPED.into())
}

/// The answer line, or none where the case cannot be asked.
fn answered(side: &dyn Side, case: &Case) -> Option<String> {
    match case {
        Case::Hash(job) => job_line(side, job, true),
        Case::Fill(job) => job_line(side, job, false),
        Case::Long { length, seed, input } => long_line(side, *length, *seed, input),
        Case::Position { .. } => {
            side.position(case).map(|found| format!("{} {} {}", found.answer, found.lane, found.block))
        }
        Case::Step { job, words, seed, lane } => step_line(side, job, *words, *seed, *lane),
        Case::Finish { job, words, seed, length } => finish_line(side, job, *words, *seed, *length),
    }
}
