//! 01, "Domain and sizes", and rows 1 to 8 of the answers.

use crate::answer::Row;

/// The 32-bit numbers of a hash.
#[derive(Clone, Copy, Debug, PartialEq, Eq)]
pub struct Params {
    /// 0 is d, 1 is i, 2 is id.
    pub algorithm: u32,
    /// 16 or 19.
    pub version: u32,
    /// m, the memory cost.
    pub memory: u32,
    /// t, the passes.
    pub passes: u32,
    /// p, the lanes.
    pub lanes: u32,
    /// The tag length that is set, if one is.
    pub configured: Option<u32>,
}

impl Params {
    /// Argon2d.
    pub const D: u32 = 0;
    /// Argon2i.
    pub const I: u32 = 1;
    /// Argon2id.
    pub const ID: u32 = 2;
    /// The version that overwrites.
    pub const OVERWRITING: u32 = 16;
    /// The version of RFC 9106.
    pub const RFC: u32 = 19;
    /// The most lanes, ours.
    pub const MOST_LANES: u32 = 16;
    /// The most memory, ours.
    pub const MOST_MEMORY: u32 = 1_048_576;
    /// The shortest tag.
    pub const LEAST_TAG: u32 = 4;
    /// Slices of a pass.
    pub const SLICES: usize = 4;

    /// Rows 1 and 2: what kind of hash.
    pub fn kind_rows(&self) -> [Row; 2] {
        [
            (1, ![Self::D, Self::I, Self::ID].contains(&self.algorithm)),
            (2, ![Self::OVERWRITING, Self::RFC].contains(&self.version)),
        ]
    }

    /// Rows 3 to 7: lanes, memory and passes.
    pub fn cost_rows(&self) -> [Row; 5] {
        [
            (3, self.lanes == 0),
            (4, self.lanes > Self::MOST_LANES),
            (5, u64::from(self.memory) < 8 * u64::from(self.lanes)),
            (6, self.memory > Self::MOST_MEMORY),
            (7, self.passes == 0),
        ]
    }

    /// Row 8: the configured tag length.
    pub fn configured_rows(&self) -> [Row; 1] {
        [(8, self.configured.is_some_and(|length| length < Self::LEAST_TAG))]
    }

    /// s, the blocks of a segment; none without lanes.
    pub fn segment(&self) -> usize {
        (self.memory as usize).checked_div(Self::SLICES * self.lanes as usize).unwrap_or(0)
    }

    /// q, the blocks of a lane.
    pub fn lane_length(&self) -> usize {
        Self::SLICES * self.segment()
    }

    /// m', all blocks.
    pub fn blocks(&self) -> usize {
        self.lanes as usize * self.lane_length()
    }
}
