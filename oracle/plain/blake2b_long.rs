//! 01, "Variable hash" (RFC 9106, section 3.3).

use crate::answer::{ACCEPTED, Answer, MOST_BYTES, first};
use crate::blake2b::{MOST_OUT, hash};

/// Bytes put out of each hash but the last.
const HALF: usize = MOST_OUT / 2;

/// The variable-length hash of the pieces: 11 for no output, 12 over 2^32-1 bytes.
pub fn blake2b_long(pieces: &[&[u8]], out: &mut [u8]) -> Answer {
    let answer = first(&[&[(11, out.is_empty()), (12, out.len() > MOST_BYTES)]]);
    if answer == ACCEPTED {
        expand(pieces, out);
    }
    answer
}

/// The same for a length that is known to be allowed.
pub fn expand(pieces: &[&[u8]], out: &mut [u8]) {
    let length = (out.len() as u32).to_le_bytes();
    let input = [&[&length[..]], pieces].concat();
    if out.len() <= MOST_OUT {
        return hash(&input, out);
    }
    let mut last = [0; MOST_OUT];
    hash(&input, &mut last);
    out[..HALF].copy_from_slice(&last[..HALF]);
    let mut rest = &mut out[HALF..];
    while rest.len() > MOST_OUT {
        let before = last;
        hash(&[&before], &mut last);
        rest[..HALF].copy_from_slice(&last[..HALF]);
        rest = &mut rest[HALF..];
    }
    hash(&[&last], rest);
}
