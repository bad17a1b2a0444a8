//! Measures the crate as bench.c measures the proved functions: the same commands, the same inputs, the same answers.
//! `bench/run` compiles it against the crate's unchanged files, for release, with stand-ins that know no AVX2; where the
//! files are not at hand, against the plain copy, which the cfg `plain_only` says.
use std::io::{BufRead, Write};

const PASSES: u32 = 3;
const LANES: u32 = 4;
const MEMORY: u32 = 65_536;
const TAG: usize = 32;
const CHAIN: u32 = 1000;

#[cfg(not(plain_only))]
#[path = "block.rs"]
#[allow(dead_code)]
mod block;

#[repr(C)]
struct Timespec {
    seconds: i64,
    nanoseconds: i64,
}

unsafe extern "C" {
    fn clock_gettime(clock: i32, time: *mut Timespec) -> i32;
}

const PROCESSOR: i32 = 2;
const MONOTONIC: i32 = 1;

fn now(clock: i32) -> u64 {
    let mut time = Timespec { seconds: 0, nanoseconds: 0 };
    // SAFETY: the clocks are Linux's, and the time is ours to write.
    unsafe { clock_gettime(clock, &mut time) };
    time.seconds as u64 * 1_000_000_000 + time.nanoseconds as u64
}

#[cfg(not(plain_only))]
mod side {
    use super::{CHAIN, LANES, MEMORY, PASSES, TAG, block::Block as Inner};
    use argon2::{Algorithm, Argon2, Block, Params, Version};

    pub type Memory = Vec<Block>;

    pub fn lent() -> Memory {
        // zeros that the system hands out untouched
        let layout = std::alloc::Layout::array::<Block>(MEMORY as usize).expect("a layout");
        // SAFETY: a block is 128 words, for which zeros are values.
        unsafe { Vec::from_raw_parts(std::alloc::alloc_zeroed(layout).cast(), MEMORY as usize, MEMORY as usize) }
    }

    pub fn clear(memory: &mut Memory) {
        memory.iter_mut().for_each(|block| block.as_mut().fill(0));
    }

    pub fn hash(memory: &mut Memory) {
        let params = Params::new(MEMORY, PASSES, LANES, None).expect("parameters");
        let context = Argon2::new(Algorithm::Argon2id, Version::V0x13, params);
        let mut tag = [0; TAG];
        context.hash_password_into_with_memory(b"password", b"somesalt", &mut tag, memory).expect("a tag");
        std::hint::black_box(tag);
    }

    pub fn compress() {
        let (mut x, y) = (Inner::new(), Inner::new());
        (0..CHAIN).for_each(|_| x = Inner::compress(&x, &y));
        std::hint::black_box(x.as_ref()[0]);
    }
}

#[cfg(plain_only)]
mod side {
    use super::{CHAIN, LANES, MEMORY, PASSES, TAG};
    use plain::{BLOCK_WORDS, Inputs, Params};

    pub type Memory = Vec<u64>;

    pub fn lent() -> Memory {
        vec![0; MEMORY as usize * BLOCK_WORDS]
    }

    pub fn clear(memory: &mut Memory) {
        memory.fill(0);
    }

    pub fn hash(memory: &mut Memory) {
        let params = Params { algorithm: 2, version: 19, memory: MEMORY, passes: PASSES, lanes: LANES, configured: None };
        let inputs = Inputs { password: b"password", salt: b"somesalt", secret: b"", data: b"" };
        let mut tag = [0; TAG];
        assert_eq!(plain::hash(&params, &inputs, memory, &mut tag), plain::ACCEPTED);
        std::hint::black_box(tag);
    }

    pub fn compress() {
        let (mut x, y) = ([0; BLOCK_WORDS], [0; BLOCK_WORDS]);
        (0..CHAIN).for_each(|_| x = plain::compress(&x, &y));
        std::hint::black_box(x);
    }
}

fn main() {
    let mut kept = side::lent();
    for line in std::io::stdin().lock().lines() {
        let time = match line.expect("a line").as_str() {
            "hash" => {
                side::clear(&mut kept);
                let began = now(PROCESSOR);
                side::hash(&mut kept);
                now(PROCESSOR) - began
            }
            "compress" => {
                let began = now(PROCESSOR);
                side::compress();
                (now(PROCESSOR) - began) / u64::from(CHAIN)
            }
            _ => {
                let mut fresh = side::lent();
                let began = now(MONOTONIC);
                side::hash(&mut fresh);
                now(MONOTONIC) - began
            }
        };
        println!("{time}");
        std::io::stdout().flush().expect("an answer");
    }
}
