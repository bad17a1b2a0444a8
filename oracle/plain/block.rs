//! 01, "Compression" (RFC 9106, sections 3.5 and 3.6).

/// Words of a block.
pub const BLOCK_WORDS: usize = 128;

/// A block of 1,024 bytes.
pub type Block = [u64; BLOCK_WORDS];

/// a + b + 2 · low half of a · low half of b, all wrapping.
fn add_product(a: u64, b: u64) -> u64 {
    let product = (a & 0xffff_ffff) * (b & 0xffff_ffff);
    a.wrapping_add(b).wrapping_add(product).wrapping_add(product)
}

/// One quarter step on four of the words.
fn mix(v: &mut [u64; 16], a: usize, b: usize, c: usize, d: usize) {
    for (first, second) in [(32, 24), (16, 63)] {
        v[a] = add_product(v[a], v[b]);
        v[d] = (v[d] ^ v[a]).rotate_right(first);
        v[c] = add_product(v[c], v[d]);
        v[b] = (v[b] ^ v[c]).rotate_right(second);
    }
}

/// The permutation P: four columns of a 4 by 4 matrix, then its four diagonals.
fn permute(v: &mut [u64; 16]) {
    for turn in 0..2 {
        for i in 0..4 {
            let row = |n: usize| 4 * n + (i + turn * n) % 4;
            mix(v, row(0), row(1), row(2), row(3));
        }
    }
}

/// Applies P to the sixteen words of the block that `at` names.
fn permute_at(q: &mut Block, at: impl Fn(usize) -> usize) {
    let mut v = std::array::from_fn(|n| q[at(n)]);
    permute(&mut v);
    for (n, word) in v.into_iter().enumerate() {
        q[at(n)] = word;
    }
}

/// Word by word exclusive or.
pub fn xor(x: &Block, y: &Block) -> Block {
    std::array::from_fn(|i| x[i] ^ y[i])
}

/// The compression of two blocks: P on 8 rows of 16 words, then on 8 columns of word pairs.
pub fn compress(x: &Block, y: &Block) -> Block {
    let r = xor(x, y);
    let mut q = r;
    for row in 0..8 {
        permute_at(&mut q, |n| 16 * row + n);
    }
    for column in 0..8 {
        permute_at(&mut q, |n| 16 * (n / 2) + 2 * column + n % 2);
    }
    xor(&q, &r)
}
