//! Compressions by the Rust crate's own `block.rs`, written as the program `replay` writes them.
//! `run` puts that file beside this one; nothing of the crate is copied.
#![allow(dead_code)]
mod block;

use block::Block;

/// How many pairs are drawn, and how many compressions the chain has.
const PAIRS: usize = 4;
const CHAIN: usize = 1000;

/// The generator's first state.
const SEED: u64 = 88_172_645_463_325_252;

/// Marsaglia's xorshift of 64 bits, with 13, 7 and 17.
fn next(seed: &mut u64) -> u64 {
    *seed ^= *seed << 13;
    *seed ^= *seed >> 7;
    *seed ^= *seed << 17;
    *seed
}

/// The block whose words a rule gives, one after the other.
fn block(mut word: impl FnMut() -> u64) -> Block {
    let mut b = Block::new();
    b.as_mut().iter_mut().for_each(|w| *w = word());
    b
}

/// The block of the words `first`, `first + 1`, ..
fn counting(first: u64) -> Block {
    let mut n = first;
    block(|| {
        n += 1;
        n - 1
    })
}

/// One line: what it is, and the block's bytes, each word little-endian.
fn print(name: &str, b: Block) {
    let hex: String = b.iter().flat_map(|w| w.to_le_bytes()).map(|b| format!("{b:02x}")).collect();
    println!("{name}  {hex}");
}

fn main() {
    print("compress zeros", Block::compress(&Block::new(), &Block::new()));
    print("compress counting", Block::compress(&counting(0), &counting(1)));
    print("compress ones", Block::compress(&block(|| u64::MAX), &Block::new()));
    let mut seed = SEED;
    for _ in 0..PAIRS {
        let x = block(|| next(&mut seed));
        let y = block(|| next(&mut seed));
        print("compress random", Block::compress(&x, &y));
    }
    let mut x = block(|| next(&mut seed));
    let mut y = block(|| next(&mut seed));
    for _ in 0..CHAIN {
        let z = Block::compress(&x, &y);
        x = y;
        y = z;
    }
    print("chain", y);
}
