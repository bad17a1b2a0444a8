//! Steps and finishes on jobs that stand consistent and on jobs that do not, at the boundaries of rows 16 to 21, 11 and 12.

use crate::case::Case;
use plain::{BLOCK_WORDS, Job, Params, Place};

/// Numbers and a tag length that are accepted: short segments, one lane to all of them.
fn shapes() -> [(Params, usize); 4] {
    let shape = |algorithm, version, memory, passes, lanes, configured| Params {
        algorithm,
        version,
        memory,
        passes,
        lanes,
        configured,
    };
    [
        (shape(Params::ID, Params::RFC, 8, 1, 1, None), 32),
        (shape(Params::D, Params::OVERWRITING, 27, 3, 2, Some(20)), 20),
        (shape(Params::I, Params::RFC, 37, 2, 3, None), 4),
        (shape(Params::ID, Params::RFC, 128, 1, Params::MOST_LANES, None), 65),
    ]
}

/// A job with every used lane at a block.
fn standing(params: Params, tag: usize, pass: u32, slice: u32, block: u32) -> Job {
    let mut job = Job { params, tag, pass, slice, ..Job::ZEROS };
    job.positions[..params.lanes as usize].fill(block);
    job
}

/// The job with another position of a lane.
fn moved(job: Job, lane: usize, block: u32) -> Job {
    let mut job = job;
    job.positions[lane] = block;
    job
}

/// Jobs inside the first and the last pass, in each slice: all lanes at the first block, the last lane finished, lane 0 one
/// step before the next slice; and the complete job. With segments of two blocks those of pass 0, slice 0 are none of them.
fn inside(params: Params, tag: usize) -> Vec<Job> {
    let (end, last) = (params.segment() as u32, params.lanes as usize - 1);
    let mut jobs = vec![standing(params, tag, params.passes, 0, 0)];
    for pass in [0, params.passes - 1] {
        for slice in 0..4 {
            let all = |block| standing(params, tag, pass, slice, block);
            let first = all(Place::first_block(pass, slice));
            for job in [first, moved(first, last, end), moved(all(end), 0, end - 1)] {
                if !jobs.contains(&job) {
                    jobs.push(job);
                }
            }
        }
    }
    jobs
}

/// The job with other numbers.
fn with(job: Job, params: Params) -> Job {
    Job { params, ..job }
}

/// The job with numbers of which one is not accepted, or a tag length that they do not allow.
fn other_numbers(job: Job) -> Vec<Job> {
    let p = job.params;
    let with = |params| with(job, params);
    vec![
        with(Params { algorithm: Params::ID + 1, ..p }),
        with(Params { version: Params::RFC - 1, ..p }),
        with(Params { lanes: 0, ..p }),
        with(Params { lanes: Params::MOST_LANES + 1, memory: 8 * (Params::MOST_LANES + 1), ..p }),
        with(Params { lanes: u32::MAX, ..p }),
        with(Params { memory: 8 * p.lanes - 1, ..p }),
        with(Params { memory: Params::MOST_MEMORY + 1, ..p }),
        with(Params { passes: 0, ..p }),
        Job { tag: 3, ..with(Params { configured: Some(3), ..p }) },
        Job { tag: 0, ..with(Params { configured: Some(0), ..p }) },
        with(Params { configured: Some(job.tag as u32 + 1), ..p }),
        with(Params { configured: Some(job.tag as u32 - 1), ..p }),
        Job { tag: 3, ..with(Params { configured: None, ..p }) },
        Job { tag: 0xffff_ffff, ..with(Params { configured: None, ..p }) },
        Job { tag: 0x1_0000_0000, ..with(Params { configured: None, ..p }) },
    ]
}

/// The job elsewhere than any step leaves it; some of these are consistent after all.
fn other_places(job: Job) -> Vec<Job> {
    let (t, lanes, end) = (job.params.passes, job.params.lanes as usize, job.params.segment() as u32);
    let all = |block| standing(job.params, job.tag, job.pass, job.slice, block);
    let mut jobs = vec![
        Job { slice: 4, ..job },
        Job { slice: u32::MAX, ..job },
        Job { pass: t, ..job },
        Job { pass: t + 1, ..job },
        Job { pass: u32::MAX, ..job },
        Job { pass: t, slice: 1, ..job },
        moved(Job { pass: t, slice: 0, ..job }, 0, 1),
        Job { pass: 0, slice: 0, ..job },
        moved(job, 0, 1),
        moved(job, 0, end),
        moved(job, 0, end + 1),
        moved(job, 0, u32::MAX),
        all(end),
        all(end + 1),
    ];
    for idle in [lanes, 15].into_iter().filter(|lane| *lane < 16 && *lane >= lanes) {
        jobs.extend([moved(job, idle, 1), moved(job, idle, end)]);
    }
    jobs
}

/// So many words as its blocks take, of a job with a few blocks.
fn needed(job: &Job) -> usize {
    BLOCK_WORDS * job.params.blocks().min(128)
}

/// The calls for a job that may be consistent: words enough and one too few, lanes around the last, outputs around the tag.
fn asked(job: Job, seed: u64) -> Vec<Case> {
    let (words, lanes, tag) = (needed(&job), job.params.lanes, job.tag.min(64));
    let step = |words, lane| Case::Step { job, words, seed, lane };
    let finish = |words, length| Case::Finish { job, words, seed, length };
    let mut cases = vec![
        step(words, 0),
        step(words, lanes.wrapping_sub(1)),
        step(words, lanes),
        step(words.max(1) - 1, lanes),
        finish(words, job.tag.min(256)),
        finish(words.max(1) - 1, tag),
    ];
    if job.pass == job.params.passes {
        cases.extend([
            step(words, u32::MAX),
            finish(words, tag + 2),
            finish(words, tag.max(1) - 1),
            finish(words, 0),
        ]);
    }
    cases
}

/// The calls for a job that is not meant to be consistent.
fn asked_little(job: Job, seed: u64) -> Vec<Case> {
    let words = needed(&job);
    let step = |words, lane| Case::Step { job, words, seed, lane };
    let finish = |words, length| Case::Finish { job, words, seed, length };
    vec![step(words, 0), step(0, 16), finish(words, job.tag.min(256)), finish(0, 0)]
}

/// All of them, no two the same.
pub fn cases() -> Vec<Case> {
    let mut cases = asked_little(Job::ZEROS, 1);
    for (params, tag) in shapes() {
        let jobs = inside(params, tag);
        let first = jobs.iter().position(|job| job.slice == 1).unwrap_or(0);
        for (job, seed) in jobs.iter().zip(1..) {
            cases.extend(asked(*job, seed));
        }
        for job in [jobs[0], jobs[first]] {
            let numbers = if params.lanes == 2 { other_numbers(job) } else { Vec::new() };
            let places = if [2, 3].contains(&params.lanes) { other_places(job) } else { Vec::new() };
            for (other, seed) in numbers.into_iter().chain(places).zip(100..) {
                cases.extend(asked_little(other, seed));
            }
        }
    }
    let mut kept: Vec<Case> = Vec::new();
    for case in cases {
        if !kept.contains(&case) {
            kept.push(case);
        }
    }
    kept
}
