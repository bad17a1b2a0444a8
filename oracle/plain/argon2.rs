//! 01, "The rules of filling": the whole hash and `fill_memory` over lent words.

use crate::answer::{ACCEPTED, Answer, MOST_BYTES, Row, first};
use crate::blake2b::{MOST_OUT, hash as blake2b};
use crate::blake2b_long::expand;
use crate::block::{BLOCK_WORDS, Block, compress, xor};
use crate::params::Params;
use crate::position::Place;

/// The most bytes of associated data.
const MOST_DATA: usize = 32;

/// The fewest bytes of salt.
const LEAST_SALT: usize = 8;

/// What is hashed. No secret is an empty one.
#[derive(Clone, Copy, Debug)]
pub struct Inputs<'a> {
    pub password: &'a [u8],
    pub salt: &'a [u8],
    pub secret: &'a [u8],
    pub data: &'a [u8],
}

impl Inputs<'_> {
    /// Rows 9 and 10.
    fn early_rows(&self) -> [Row; 2] {
        [(9, self.data.len() > MOST_DATA), (10, self.secret.len() > MOST_BYTES)]
    }

    /// Rows 13 to 15.
    fn late_rows(&self) -> [Row; 3] {
        [
            (13, self.password.len() > MOST_BYTES),
            (14, self.salt.len() < LEAST_SALT),
            (15, self.salt.len() > MOST_BYTES),
        ]
    }
}

/// Rows 11 and 12.
pub(crate) fn tag_rows(params: &Params, tag: usize) -> [Row; 2] {
    let (least, most) = match params.configured {
        Some(length) => (length as usize, length as usize),
        None => (Params::LEAST_TAG as usize, MOST_BYTES),
    };
    [(11, tag < least), (12, tag > most)]
}

/// Row 16.
pub(crate) fn memory_rows(params: &Params, words: &[u64]) -> [Row; 1] {
    [(16, words.len() < BLOCK_WORDS * params.blocks())]
}

/// Rows 1 to 16, of start and of the whole hash.
pub(crate) fn start_answer(params: &Params, length: usize, inputs: &Inputs, words: &[u64]) -> Answer {
    first(&[
        &params.kind_rows(),
        &params.cost_rows(),
        &params.configured_rows(),
        &inputs.early_rows(),
        &tag_rows(params, length),
        &inputs.late_rows(),
        &memory_rows(params, words),
    ])
}

/// The whole hash (`hash_password_into_with_memory`): rows 1 to 16, then memory and tag.
pub fn hash(params: &Params, inputs: &Inputs, words: &mut [u64], out: &mut [u8]) -> Answer {
    let answer = start_answer(params, out.len(), inputs, words);
    if answer == ACCEPTED {
        fill(params, &initial_hash(params, inputs, out.len()), words);
        tag(params, words, out);
    }
    answer
}

/// `fill_memory`: rows 1 to 10 and 13 to 16, then memory, with tag length 0.
pub fn fill_memory(params: &Params, inputs: &Inputs, words: &mut [u64]) -> Answer {
    let answer = first(&[
        &params.kind_rows(),
        &params.cost_rows(),
        &params.configured_rows(),
        &inputs.early_rows(),
        &inputs.late_rows(),
        &memory_rows(params, words),
    ]);
    if answer == ACCEPTED {
        fill(params, &initial_hash(params, inputs, 0), words);
    }
    answer
}

/// "Initial hash": six numbers, then the four inputs, each after its count.
pub(crate) fn initial_hash(params: &Params, inputs: &Inputs, tag: usize) -> [u8; MOST_OUT] {
    let numbers = [params.lanes, tag as u32, params.memory, params.passes, params.version, params.algorithm]
        .map(u32::to_le_bytes);
    let parts = [inputs.password, inputs.salt, inputs.secret, inputs.data];
    let counts = parts.map(|part| (part.len() as u32).to_le_bytes());
    let mut pieces: Vec<&[u8]> = numbers.iter().map(|number| &number[..]).collect();
    for (count, part) in counts.iter().zip(parts) {
        pieces.extend([&count[..], part]);
    }
    let mut out = [0; MOST_OUT];
    blake2b(&pieces, &mut out);
    out
}

/// Block `b` of the lent words.
fn block(words: &[u64], b: usize) -> Block {
    std::array::from_fn(|i| words[BLOCK_WORDS * b + i])
}

/// Writes block `b` of the lent words.
fn put(words: &mut [u64], b: usize, x: &Block) {
    words[BLOCK_WORDS * b..BLOCK_WORDS * (b + 1)].copy_from_slice(x);
}

/// Blocks 0 and 1 of every lane.
pub(crate) fn put_first_blocks(params: &Params, initial: &[u8; MOST_OUT], words: &mut [u64]) {
    for lane in 0..params.lanes {
        for number in 0..2u32 {
            let x = first_block(initial, number, lane);
            put(words, lane as usize * params.lane_length() + number as usize, &x);
        }
    }
}

/// Blocks 0 and 1 of every lane, then every pass, slice and lane in order.
fn fill(params: &Params, initial: &[u8; MOST_OUT], words: &mut [u64]) {
    put_first_blocks(params, initial, words);
    for pass in 0..params.passes {
        for slice in 0..Params::SLICES as u32 {
            for lane in 0..params.lanes {
                fill_segment(params, pass, slice, lane, words);
            }
        }
    }
}

/// The variable hash of the initial hash, the block's number and the lane.
fn first_block(initial: &[u8; MOST_OUT], number: u32, lane: u32) -> Block {
    let mut bytes = [0; 8 * BLOCK_WORDS];
    expand(&[initial, &number.to_le_bytes(), &lane.to_le_bytes()], &mut bytes);
    std::array::from_fn(|i| u64::from_le_bytes(std::array::from_fn(|n| bytes[8 * i + n])))
}

/// Whether the random words of a segment come from address blocks.
fn addressed(params: &Params, pass: u32, slice: u32) -> bool {
    params.algorithm == Params::I || params.algorithm == Params::ID && pass == 0 && slice < 2
}

/// Fills what is to be filled of one segment, block after block.
fn fill_segment(params: &Params, pass: u32, slice: u32, lane: u32, words: &mut [u64]) {
    let addressed = addressed(params, pass, slice);
    let mut addresses = [0; BLOCK_WORDS];
    let start = Place::first_block(pass, slice);
    for number in start..params.segment() as u32 {
        let place = Place { pass, slice, lane, block: number };
        let in_block = number as usize % BLOCK_WORDS;
        if addressed && (number == start || in_block == 0) {
            addresses = address_block(params, &place);
        }
        fill_with(params, &place, addressed.then_some(addresses[in_block]), words);
    }
}

/// Fills one block by itself.
pub(crate) fn fill_block(params: &Params, place: &Place, words: &mut [u64]) {
    let address = || address_block(params, place)[place.block as usize % BLOCK_WORDS];
    fill_with(params, place, addressed(params, place.pass, place.slice).then(address), words);
}

/// Fills one block, whose random word is word 0 of the previous block where no address is given.
fn fill_with(params: &Params, place: &Place, address: Option<u64>, words: &mut [u64]) {
    let Place { pass, slice, lane, block: number } = *place;
    let base = lane as usize * params.lane_length();
    let column = slice as usize * params.segment() + number as usize;
    let before = if column == 0 { params.lane_length() } else { column } - 1;
    let previous = block(words, base + before);
    let (other, at) = place.refers_to(params, address.unwrap_or(previous[0]));
    let reference = block(words, other as usize * params.lane_length() + at as usize);
    let mut new = compress(&previous, &reference);
    if pass > 0 && params.version != Params::OVERWRITING {
        new = xor(&new, &block(words, base + column));
    }
    put(words, base + column, &new);
}

/// "Random word": the addresses for this block of the segment, and for those with the same counter.
fn address_block(params: &Params, place: &Place) -> Block {
    let mut input = [0; BLOCK_WORDS];
    input[..7].copy_from_slice(&[
        u64::from(place.pass),
        u64::from(place.lane),
        u64::from(place.slice),
        params.blocks() as u64,
        u64::from(params.passes),
        u64::from(params.algorithm),
        u64::from(place.block) / BLOCK_WORDS as u64 + 1,
    ]);
    let zeros = [0; BLOCK_WORDS];
    compress(&zeros, &compress(&zeros, &input))
}

/// "Tag": the variable hash of the XOR of every lane's last block.
pub(crate) fn tag(params: &Params, words: &[u64], out: &mut [u8]) {
    let last = |lane: u32| block(words, (lane as usize + 1) * params.lane_length() - 1);
    let all = (0..params.lanes).fold([0; BLOCK_WORDS], |sum, lane| xor(&sum, &last(lane)));
    expand(&[all.map(u64::to_le_bytes).as_flattened()], out);
}
