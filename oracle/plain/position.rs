//! 01, "Reference lane" and "Area" (RFC 9106, section 3.4).

use crate::answer::{ACCEPTED, Answer, first};
use crate::params::Params;

/// A block that a step fills: `block` counts within the segment.
#[derive(Clone, Copy, Debug, PartialEq, Eq)]
pub struct Place {
    pub pass: u32,
    pub slice: u32,
    pub lane: u32,
    pub block: u32,
}

/// Which block is referred to: `block` counts within the lane.
#[derive(Clone, Copy, Debug, Default, PartialEq, Eq)]
pub struct Reference {
    pub answer: Answer,
    pub lane: u32,
    pub block: u32,
}

impl Place {
    /// The first block of a segment that is filled: start wrote two of pass 0, slice 0.
    pub fn first_block(pass: u32, slice: u32) -> u32 {
        if pass == 0 && slice == 0 { 2 } else { 0 }
    }

    /// Row 17: no step fills this block.
    fn is_none_of(&self, params: &Params) -> bool {
        let blocks = Self::first_block(self.pass, self.slice)..params.segment() as u32;
        !(self.pass < params.passes
            && self.slice < Params::SLICES as u32
            && self.lane < params.lanes
            && blocks.contains(&self.block))
    }

    /// How many blocks may be referred to.
    fn area(&self, params: &Params, own: bool) -> u64 {
        let segment = params.segment() as u64;
        let finished = if self.pass == 0 {
            u64::from(self.slice) * segment
        } else {
            params.lane_length() as u64 - segment
        };
        if own { finished + u64::from(self.block) - 1 } else { finished - u64::from(self.block == 0) }
    }

    /// The reference lane, and the block within that lane, for a random word.
    pub fn refers_to(&self, params: &Params, word: u64) -> (u32, u32) {
        let lane =
            if self.pass == 0 && self.slice == 0 { self.lane } else { (word >> 32) as u32 % params.lanes };
        let area = self.area(params, lane == self.lane);
        let low = word & 0xffff_ffff;
        let x = (low * low) >> 32;
        let place = area - 1 - ((area * x) >> 32);
        let start = if self.pass > 0 && self.slice < 3 {
            u64::from(self.slice + 1) * params.segment() as u64
        } else {
            0
        };
        (lane, ((start + place) % params.lane_length() as u64) as u32)
    }
}

/// The public reference position: rows 3 to 7, then 17; zeros if refused.
pub fn reference_position(params: &Params, place: Place, word: u64) -> Reference {
    let answer = first(&[&params.cost_rows(), &[(17, place.is_none_of(params))]]);
    if answer != ACCEPTED {
        return Reference { answer, ..Reference::default() };
    }
    let (lane, block) = place.refers_to(params, word);
    Reference { answer, lane, block }
}
