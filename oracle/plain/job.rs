//! 01, "The job": start, step and finish over lent words, one block a step.

use crate::answer::{ACCEPTED, Answer, Row, first};
use crate::argon2::{
    Inputs, fill_block, initial_hash, memory_rows, put_first_blocks, start_answer, tag, tag_rows,
};
use crate::params::Params;
use crate::position::Place;

/// "An array of 16 positions".
pub const POSITIONS: usize = Params::MOST_LANES as usize;

/// Accepted numbers, and where the filling stands.
#[derive(Clone, Copy, Debug, PartialEq, Eq)]
pub struct Job {
    pub params: Params,
    /// The tag length that it was started with.
    pub tag: usize,
    pub pass: u32,
    pub slice: u32,
    /// The block within the segment that comes next, for each lane.
    pub positions: [u32; POSITIONS],
}

impl Job {
    /// What a refused start hands back.
    pub const ZEROS: Job = Job {
        params: Params { algorithm: 0, version: 0, memory: 0, passes: 0, lanes: 0, configured: None },
        tag: 0,
        pass: 0,
        slice: 0,
        positions: [0; POSITIONS],
    };

    /// The positions of the lanes in use, and of those that are not.
    fn lanes(&self) -> (&[u32], &[u32]) {
        self.positions.split_at((self.params.lanes as usize).min(POSITIONS))
    }

    /// "pass = t, slice 0, all positions 0 (complete)".
    fn stands_complete(&self) -> bool {
        self.pass == self.params.passes && self.slice == 0 && self.positions == [0; POSITIONS]
    }

    /// "pass under t, slice 0 to 3, each used lane between the segment's first block and s, and at least one under s".
    fn stands_inside(&self) -> bool {
        let (used, end) = (self.lanes().0, self.params.segment() as u32);
        let begin = Place::first_block(self.pass, self.slice);
        self.pass < self.params.passes
            && (0..=3).contains(&self.slice)
            && used.iter().all(|position| (begin..=end).contains(position))
            && used.iter().any(|position| *position < end)
    }

    /// Whether it is one that start and steps can hand back.
    pub fn consistent(&self) -> bool {
        let rows = [
            &self.params.kind_rows()[..],
            &self.params.cost_rows(),
            &self.params.configured_rows(),
            &tag_rows(&self.params, self.tag),
        ];
        first(&rows) == ACCEPTED
            && self.lanes().1.iter().all(|position| *position == 0)
            && (self.stands_complete() || self.stands_inside())
    }

    /// Row 17.
    fn job_rows(&self) -> [Row; 1] {
        [(17, !self.consistent())]
    }

    /// "When the last lane reaches s the job moves at once to the next slice or pass."
    fn onward(mut self) -> Job {
        let end = self.params.segment() as u32;
        if self.lanes().0.iter().any(|position| *position < end) {
            return self;
        }
        self.positions = [0; POSITIONS];
        self.slice += 1;
        if self.slice == 4 {
            self.slice = 0;
            self.pass += 1;
        }
        self
    }
}

/// Start: rows 1 to 16, then blocks 0 and 1 of every lane, and no other.
pub fn start(params: &Params, length: usize, inputs: &Inputs, words: &mut [u64]) -> (Answer, Job) {
    let answer = start_answer(params, length, inputs, words);
    if answer != ACCEPTED {
        return (answer, Job::ZEROS);
    }
    put_first_blocks(params, &initial_hash(params, inputs, length), words);
    let mut positions = [0; POSITIONS];
    positions[..params.lanes as usize].fill(Place::first_block(0, 0));
    (answer, Job { params: *params, tag: length, pass: 0, slice: 0, positions }.onward())
}

/// Step: rows 17, 16, 18, 19 and 20, then the lane's next block; refused, the job that it got.
pub fn step(job: &Job, words: &mut [u64], lane: u32) -> (Answer, Job) {
    let position = job.positions.get(lane as usize).copied();
    let answer = first(&[
        &job.job_rows(),
        &memory_rows(&job.params, words),
        &[
            (18, job.pass == job.params.passes),
            (19, lane >= job.params.lanes),
            (20, position == Some(job.params.segment() as u32)),
        ],
    ]);
    let (ACCEPTED, Some(block)) = (answer, position) else { return (answer, *job) };
    fill_block(&job.params, &Place { pass: job.pass, slice: job.slice, lane, block }, words);
    let mut next = *job;
    next.positions[lane as usize] += 1;
    (answer, next.onward())
}

/// Finish: rows 17, 16, 21, 11 and 12, then the tag.
pub fn finish(job: &Job, words: &[u64], out: &mut [u8]) -> Answer {
    let answer = first(&[
        &job.job_rows(),
        &memory_rows(&job.params, words),
        &[(21, job.pass != job.params.passes), (11, out.len() < job.tag), (12, out.len() > job.tag)],
    ]);
    if answer == ACCEPTED {
        tag(&job.params, words, out);
    }
    answer
}
