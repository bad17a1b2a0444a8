//! The cases: 01's boundaries first, then random ones.

use crate::answer::pattern;
use crate::case::{Bytes, Case, Job};
use plain::{BLOCK_WORDS, Params};

/// The first length that a count of 4 bytes cannot tell.
const TOO_LONG: usize = 1 << 32;

/// Numbers from a seed, one after another.
pub struct Random {
    seed: u64,
    drawn: usize,
}

impl Random {
    pub fn new(seed: u64) -> Self {
        Random { seed: seed.wrapping_add(1).max(1), drawn: 0 }
    }

    pub fn word(&mut self) -> u64 {
        self.drawn += 1;
        pattern(self.seed, self.drawn)
    }

    /// A number from `least` to `most`.
    pub fn between(&mut self, least: usize, most: usize) -> usize {
        least + (self.word() % (most - least + 1) as u64) as usize
    }

    /// True once in `n`.
    pub fn once_in(&mut self, n: usize) -> bool {
        self.between(1, n) == 1
    }

    pub fn one_of<T: Copy>(&mut self, list: &[T]) -> T {
        list[self.between(0, list.len() - 1)]
    }

    fn bytes(&mut self, length: usize) -> Bytes {
        Bytes::Told((0..length).map(|_| self.word() as u8).collect())
    }
}

/// Which call a job is for.
type Call = fn(Job) -> Case;
const CALLS: [Call; 2] = [Case::Hash, Case::Fill];

/// The smallest accepted job, over dirty memory of exactly its size.
fn smallest() -> Job {
    Job {
        algorithm: Params::ID,
        version: Params::RFC,
        memory: 8,
        passes: 1,
        lanes: 1,
        configured: None,
        tag: 32,
        words: 8 * BLOCK_WORDS,
        seed: 1,
        password: Bytes::Told(b"password".to_vec()),
        salt: Bytes::Told(b"somesalt".to_vec()),
        secret: Bytes::Told(Vec::new()),
        data: Bytes::Told(Vec::new()),
    }
}

/// Told bytes of a length, all different from their neighbours.
fn told(length: usize) -> Bytes {
    Bytes::Told((0..length).map(|i| i as u8 ^ 0x5a).collect())
}

/// A job with just the words that its blocks take.
fn fitted(job: Job) -> Job {
    Job { words: job.needed(), ..job }
}

/// Changes a job so that row `number` holds, at its boundary.
fn spoil(job: &mut Job, number: u32) {
    match number {
        1 => job.algorithm = Params::ID + 1,
        2 => job.version = Params::RFC - 1,
        3 => job.lanes = 0,
        4 => job.lanes = Params::MOST_LANES + 1,
        5 => job.memory = (8 * job.lanes).max(8) - 1,
        6 => job.memory = Params::MOST_MEMORY + 1,
        7 => job.passes = 0,
        8 => job.configured = Some(Params::LEAST_TAG - 1),
        9 => job.data = told(33),
        10 => job.secret = Bytes::Zeros(TOO_LONG),
        11 => job.tag = job.configured.unwrap_or(Params::LEAST_TAG) as usize - 1,
        12 => job.tag = job.configured.map_or(TOO_LONG, |length| length as usize + 1),
        13 => job.password = Bytes::Zeros(TOO_LONG),
        14 => job.salt = told(7),
        15 => job.salt = Bytes::Zeros(TOO_LONG),
        _ => job.words = job.needed().clamp(1, 8 * BLOCK_WORDS) - 1,
    }
}

/// Each row 1 to 16 alone.
fn rows() -> Vec<Job> {
    let spoiled = |number| {
        let mut job = smallest();
        spoil(&mut job, number);
        job
    };
    (1..=16).map(spoiled).collect()
}

/// Rows 1 to 7 on both sides of their boundaries.
fn cost_boundaries() -> Vec<Job> {
    let base = smallest();
    let mut jobs: Vec<Job> = Vec::new();
    for algorithm in [0, 1, 2, 4, 256, u32::MAX] {
        jobs.push(Job { algorithm, ..base.clone() });
    }
    for version in [0, 15, 16, 17, 19, 20, 0x1300, u32::MAX] {
        jobs.push(Job { version, ..base.clone() });
    }
    for memory in [0, 7, 8, 1024] {
        jobs.push(Job { lanes: 0, memory, ..base.clone() });
    }
    for (lanes, memory) in [(16, 127), (16, 128), (17, 135), (17, 136), (32, 256), (1 << 24, 1 << 20)] {
        jobs.push(Job { lanes, memory, words: 256 * BLOCK_WORDS, ..base.clone() });
    }
    let most = u32::MAX;
    for (lanes, memory) in [(16, 128), ((1 << 24) - 1, 7), ((1 << 24) - 1, 8), (most, 8), (most, most)] {
        jobs.push(Job { lanes, memory, ..base.clone() });
    }
    for memory in [0, 1, 6, 9, 1_048_575, 1_048_576, 1_048_578, most] {
        jobs.push(Job { memory, ..base.clone() });
        jobs.push(Job { memory, lanes: 16, ..base.clone() });
    }
    jobs.push(Job { passes: most, words: 0, ..base });
    jobs
}

/// Rows 8 to 16 on both sides of their boundaries.
fn input_boundaries() -> Vec<Job> {
    let base = smallest();
    let mut jobs: Vec<Job> = Vec::new();
    for length in [0, 1, 2, 4, 5, 32, 64, 65, u32::MAX] {
        let near = [length.saturating_sub(1), length, length.saturating_add(1)];
        for tag in near.into_iter().filter(|tag| *tag <= 256) {
            jobs.push(Job { configured: Some(length), tag: tag as usize, ..base.clone() });
        }
    }
    jobs.push(Job { configured: Some(u32::MAX), ..base.clone() });
    for length in [0, 1, 31, 32, 34, 64] {
        jobs.push(Job { data: told(length), ..base.clone() });
    }
    for tag in 0..6 {
        jobs.push(Job { tag, ..base.clone() });
        jobs.push(Job { tag, salt: told(7), ..base.clone() });
    }
    for length in [0, 1, 6, 8, 9] {
        jobs.push(Job { salt: told(length), ..base.clone() });
    }
    for words in [0, 1, 127, 128, 896, 1022, 1023, 1024, 1025, 1151, 1152, 1153, 2048] {
        jobs.push(Job { words, ..base.clone() });
    }
    jobs
}

/// Every two rows that can hold together: the first is the answer.
fn pairs() -> Vec<Job> {
    let apart = [(3, 4), (5, 6), (11, 12), (14, 15)];
    let mut jobs = Vec::new();
    for one in 1..=16 {
        for two in (one + 1..=16).filter(|two| !apart.contains(&(one, *two))) {
            let mut job = smallest();
            spoil(&mut job, one);
            spoil(&mut job, two);
            jobs.push(job);
        }
    }
    jobs
}

/// Tags around the lengths of the variable-length hash's pieces, with and without a configured length.
fn tags() -> Vec<Job> {
    let lengths = [4, 31, 32, 33, 63, 64, 65, 95, 96, 97, 127, 128, 129, 255, 256, 257, 1024];
    let job = |tag, configured| Job { tag, configured, ..smallest() };
    lengths.into_iter().flat_map(|tag| [job(tag, None), job(tag, Some(tag as u32))]).collect()
}

/// Every algorithm and version with 1 to 4 passes.
fn passes() -> Vec<Job> {
    let mut jobs = Vec::new();
    for algorithm in 0..3 {
        for version in [Params::OVERWRITING, Params::RFC] {
            for passes in 1..=4 {
                jobs.push(Job { algorithm, version, passes, memory: 37, lanes: 3, ..smallest() });
            }
        }
    }
    jobs
}

/// Segments around 128 blocks and over, which take a second address block.
fn segments() -> Vec<Job> {
    let mut jobs = Vec::new();
    for (memory, lanes) in [(508, 1), (512, 1), (516, 1), (519, 1), (1028, 1), (1036, 2), (2100, 4)] {
        for algorithm in 0..3 {
            for version in [Params::OVERWRITING, Params::RFC] {
                jobs.push(Job { algorithm, version, memory, lanes, passes: 2, ..smallest() });
            }
        }
    }
    jobs
}

/// Every number of lanes, with memory that they divide and memory that they do not.
fn lanes() -> Vec<Job> {
    let mut jobs = Vec::new();
    for lanes in 1..=Params::MOST_LANES {
        for (memory, algorithm) in [(8 * lanes, 2), (12 * lanes - 1, 0), (12 * lanes, 1), (17 * lanes + 3, 2)]
        {
            let version = if memory % 2 == 0 { Params::RFC } else { Params::OVERWRITING };
            jobs.push(Job { algorithm, version, memory, lanes, passes: 2, ..smallest() });
        }
    }
    jobs
}

/// Inputs around the edges of the initial hash's blocks.
fn inputs() -> Vec<Job> {
    let around = [99, 100, 101, 126, 127, 128, 129, 191, 192, 193, 255, 256];
    let mut jobs = Vec::new();
    for length in (0..=10).chain(50..=75).chain(around) {
        jobs.push(Job { password: told(length), ..smallest() });
        jobs.push(Job { secret: told(length), salt: told(8 + length), ..smallest() });
        jobs.push(Job { data: told(length % 33), ..smallest() });
    }
    jobs
}

/// Lends each accepted job the words that it needs, each under another pattern, the first over zeros.
fn lent(jobs: impl IntoIterator<Item = Job>) -> Vec<Job> {
    jobs.into_iter().zip(0..).map(|(job, seed)| fitted(Job { seed, ..job })).collect()
}

/// The variable-length hash at the edges of its pieces and of BLAKE2b's blocks.
fn longs() -> Vec<Case> {
    let inputs = [0, 1, 59, 60, 61, 123, 124, 125, 128, 251, 252, 253, 1024];
    let lengths = [0, 1, 3, 4, 31, 32, 33, 63, 64, 65, 95, 96, 97, 127, 128, 129, 160, 161, 1023, 1024, 1025];
    let mut cases = vec![Case::Long { length: TOO_LONG, seed: 1, input: told(3) }];
    for (i, length) in lengths.into_iter().enumerate() {
        for input in [inputs[i % inputs.len()], inputs[(5 * i + 3) % inputs.len()]] {
            cases.push(Case::Long { length, seed: i as u64, input: told(input) });
        }
    }
    for input in inputs {
        cases.push(Case::Long { length: 64, seed: 3, input: told(input) });
    }
    cases
}

/// The same jobs for `fill_memory`, which has no output.
fn fillings(jobs: impl IntoIterator<Item = Job>) -> impl Iterator<Item = Case> {
    jobs.into_iter().map(|job| Case::Fill(Job { tag: 0, ..job }))
}

/// The edge cases, in the order in which they are given.
fn edges() -> Vec<Case> {
    let boundaries = [rows(), cost_boundaries(), input_boundaries()].concat();
    let shapes = [lent(tags()), lent(passes()), lent(segments()), lent(lanes()), lent(inputs())].concat();
    let jobs = [boundaries, shapes, pairs()].concat();
    let mut cases: Vec<Case> = jobs.iter().cloned().map(Case::Hash).collect();
    cases.extend(longs());
    cases.extend(fillings(jobs));
    cases
}

/// What goes deep, and is among the cases however few they are: 6 passes, 300 passes, and Argon2i with a segment that takes
/// more than 64 address blocks.
fn deep() -> Vec<Case> {
    let mut jobs = Vec::new();
    for algorithm in 0..3 {
        for version in [Params::OVERWRITING, Params::RFC] {
            jobs.push(Job { algorithm, version, passes: 6, memory: 37, lanes: 3, ..smallest() });
        }
        jobs.push(Job { algorithm, passes: 300, ..smallest() });
    }
    jobs.push(Job { version: Params::OVERWRITING, passes: 300, ..smallest() });
    jobs.push(Job { passes: 300, memory: 19, lanes: 2, ..smallest() });
    let long = Job { algorithm: Params::I, memory: 4 * 8_300, ..smallest() };
    let fillings: Vec<Case> = fillings(lent(jobs.iter().step_by(4).cloned())).collect();
    jobs.push(long);
    lent(jobs).into_iter().map(Case::Hash).chain(fillings).collect()
}

/// What is recorded for good: boundaries, tags, passes, segments, some lanes and inputs, some fillings.
#[cfg(crate_at_hand)]
pub fn recorded() -> Vec<Case> {
    let boundaries = [rows(), cost_boundaries(), input_boundaries()].concat();
    let every = |n: usize, jobs: Vec<Job>| jobs.into_iter().step_by(n).collect::<Vec<_>>();
    let shapes = [lent(tags()), lent(passes()), lent(segments()), lent(every(5, lanes()))].concat();
    let jobs = [boundaries, shapes, lent(every(15, inputs()))].concat();
    let fillings = fillings(every(9, jobs.clone()));
    let longs = longs().into_iter().step_by(3);
    jobs.into_iter().map(Case::Hash).chain(fillings).chain(longs).collect()
}

/// An accepted job with random numbers and inputs; most are small.
fn accepted(random: &mut Random) -> Job {
    let lanes = if random.once_in(3) { random.between(1, 16) } else { random.between(1, 4) };
    let room = random.one_of(&[0, 0, 3 * lanes, 4 * lanes, 9 * lanes, 40, 40, 100]);
    let room = if random.once_in(100) { 600 * lanes.min(3) } else { room };
    let tag = random.one_of(&[4, 16, 31, 32, 32, 33, 63, 64, 65, 96, 97, 128, 256]);
    let tag = if random.once_in(4) { random.between(4, 300) } else { tag };
    let lengths = [random.between(0, 40), random.between(8, 24), random.between(0, 9), random.between(0, 32)];
    let longer =
        |random: &mut Random, length| if random.once_in(8) { random.between(8, 270) } else { length };
    let job = Job {
        algorithm: random.between(0, 2) as u32,
        version: random.one_of(&[Params::OVERWRITING, Params::RFC]),
        memory: (8 * lanes + random.between(0, room)) as u32,
        passes: random.one_of(&[1, 1, 1, 2, 2, 3, 4]),
        lanes: lanes as u32,
        configured: random.once_in(4).then_some(tag as u32),
        tag,
        words: 0,
        seed: if random.once_in(8) { 0 } else { random.word() },
        password: {
            let length = longer(random, lengths[0]);
            random.bytes(length)
        },
        salt: {
            let length = longer(random, lengths[1]);
            random.bytes(length)
        },
        secret: {
            let length = longer(random, lengths[2]);
            random.bytes(length)
        },
        data: random.bytes(lengths[3]),
    };
    let more = random.one_of(&[0, 0, 1, 127, 128, 300]);
    Job { words: job.needed() + more, ..job }
}

/// A random case: an accepted job, one with up to three rows that hold, or a variable-length hash.
fn drawn(random: &mut Random) -> Case {
    if random.once_in(12) {
        let (length, input) = (random.between(0, 400), random.between(0, 400));
        return Case::Long { length, seed: random.word(), input: random.bytes(input) };
    }
    let mut job = accepted(random);
    if random.once_in(5) {
        let mut numbers: Vec<u32> = (0..random.between(1, 3)).map(|_| random.between(1, 16) as u32).collect();
        numbers.sort();
        numbers.into_iter().for_each(|number| spoil(&mut job, number));
    }
    let call = random.one_of(&[CALLS[0], CALLS[0], CALLS[0], CALLS[1]]);
    call(job)
}

/// How many of the cases are not random.
pub fn edges_among(count: usize, most: usize) -> usize {
    let (deep, edges) = (deep().len(), edges().len());
    count.min(deep + most.saturating_sub(deep).min(edges))
}

/// So many cases: the deep ones, the edges, evenly fewer of them where they are more than the most, then random ones from the
/// seed. The most counts the deep ones too.
pub fn cases(count: usize, most: usize, seed: u64) -> impl Iterator<Item = Case> {
    let (deep, edges) = (deep(), edges());
    let taken = edges_among(count, most).saturating_sub(deep.len());
    let mut random = Random::new(seed);
    let drawn = std::iter::repeat_with(move || drawn(&mut random));
    let even = (0..taken).map(move |i| edges[i * edges.len() / taken].clone());
    deep.into_iter().chain(even).chain(drawn).take(count)
}

/// Accepted jobs at the upper ends, which take gigabytes or long: 2^32-1 bytes of input, 2^20 blocks.
pub fn large() -> Vec<Case> {
    let base = smallest();
    let most = || Bytes::Zeros(TOO_LONG - 1);
    let memory = |memory, lanes, algorithm| fitted(Job { memory, lanes, algorithm, ..base.clone() });
    let jobs = [
        Job { password: most(), ..base.clone() },
        Job { salt: most(), ..base.clone() },
        Job { secret: most(), ..base.clone() },
        memory(Params::MOST_MEMORY, 1, Params::I),
        memory(Params::MOST_MEMORY, 16, Params::ID),
        Job { passes: 2, ..memory(Params::MOST_MEMORY - 1, 16, Params::D) },
    ];
    jobs.into_iter().map(Case::Hash).collect()
}
