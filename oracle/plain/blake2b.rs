//! BLAKE2b without a key (RFC 7693), fed in pieces.

/// Bytes of an input block (`bb`).
pub const BLOCK_BYTES: usize = 128;

/// The longest output (`nn`).
pub const MOST_OUT: usize = 64;

/// The chained state (`h`).
pub type State = [u64; 8];

const IV: State = [
    0x6a09e667f3bcc908,
    0xbb67ae8584caa73b,
    0x3c6ef372fe94f82b,
    0xa54ff53a5f1d36f1,
    0x510e527fade682d1,
    0x9b05688c2b3e6c1f,
    0x1f83d9abfb41bd6b,
    0x5be0cd19137e2179,
];

/// Section 2.7, the message schedule; rounds 10 and 11 use rows 0 and 1.
const SIGMA: [[usize; 16]; 10] = [
    [0, 1, 2, 3, 4, 5, 6, 7, 8, 9, 10, 11, 12, 13, 14, 15],
    [14, 10, 4, 8, 9, 15, 13, 6, 1, 12, 0, 2, 11, 7, 5, 3],
    [11, 8, 12, 0, 5, 2, 15, 13, 10, 14, 3, 6, 7, 1, 9, 4],
    [7, 9, 3, 1, 13, 12, 11, 14, 2, 6, 5, 10, 4, 0, 15, 8],
    [9, 0, 5, 7, 2, 4, 10, 15, 14, 1, 11, 12, 6, 8, 3, 13],
    [2, 12, 6, 10, 0, 11, 8, 3, 4, 13, 7, 5, 15, 14, 1, 9],
    [12, 5, 1, 15, 14, 13, 4, 10, 0, 7, 6, 3, 9, 2, 8, 11],
    [13, 11, 7, 14, 12, 1, 3, 9, 5, 0, 15, 4, 8, 6, 2, 10],
    [6, 15, 14, 9, 11, 3, 0, 8, 12, 2, 13, 7, 1, 4, 10, 5],
    [10, 2, 8, 4, 7, 6, 1, 5, 15, 11, 9, 14, 3, 12, 13, 0],
];

/// The eight mixings of a round: four columns, four diagonals.
const MIXED: [[usize; 4]; 8] = [
    [0, 4, 8, 12],
    [1, 5, 9, 13],
    [2, 6, 10, 14],
    [3, 7, 11, 15],
    [0, 5, 10, 15],
    [1, 6, 11, 12],
    [2, 7, 8, 13],
    [3, 4, 9, 14],
];

/// Section 3.1, the mixing function G.
fn mix(v: &mut [u64; 16], [a, b, c, d]: [usize; 4], x: u64, y: u64) {
    v[a] = v[a].wrapping_add(v[b]).wrapping_add(x);
    v[d] = (v[d] ^ v[a]).rotate_right(32);
    v[c] = v[c].wrapping_add(v[d]);
    v[b] = (v[b] ^ v[c]).rotate_right(24);
    v[a] = v[a].wrapping_add(v[b]).wrapping_add(y);
    v[d] = (v[d] ^ v[a]).rotate_right(16);
    v[c] = v[c].wrapping_add(v[d]);
    v[b] = (v[b] ^ v[c]).rotate_right(63);
}

/// Section 3.2, the compression function F: `count` bytes so far, this block's own among them.
pub fn compress(h: &mut State, block: &[u8; BLOCK_BYTES], count: u128, last: bool) {
    let m: [u64; 16] =
        std::array::from_fn(|i| u64::from_le_bytes(std::array::from_fn(|byte| block[8 * i + byte])));
    let mut v: [u64; 16] = std::array::from_fn(|i| if i < 8 { h[i] } else { IV[i - 8] });
    v[12] ^= count as u64;
    v[13] ^= (count >> 64) as u64;
    if last {
        v[14] = !v[14];
    }
    for round in 0..12 {
        let s = &SIGMA[round % SIGMA.len()];
        for (i, at) in MIXED.iter().enumerate() {
            mix(&mut v, *at, m[s[2 * i]], m[s[2 * i + 1]]);
        }
    }
    for i in 0..8 {
        h[i] ^= v[i] ^ v[i + 8];
    }
}

/// The first state for an output of `out` bytes and no key.
pub fn first_state(out: usize) -> State {
    let mut h = IV;
    h[0] ^= 0x0101_0000 ^ out as u64;
    h
}

/// The bytes of a state, little-endian.
pub fn bytes_of(h: &State) -> [u8; MOST_OUT] {
    std::array::from_fn(|i| h[i / 8].to_le_bytes()[i % 8])
}

/// A hash under way. A full block waits in `held` until more bytes show that it is not the last.
pub struct Blake2b {
    h: State,
    held: [u8; BLOCK_BYTES],
    filled: usize,
    count: u128,
}

impl Blake2b {
    /// A hash of `out` bytes, 1 to 64.
    pub fn new(out: usize) -> Self {
        assert!((1..=MOST_OUT).contains(&out));
        Blake2b { h: first_state(out), held: [0; BLOCK_BYTES], filled: 0, count: 0 }
    }

    /// Takes in more of the input.
    pub fn feed(&mut self, mut piece: &[u8]) {
        while !piece.is_empty() {
            if self.filled == BLOCK_BYTES {
                compress(&mut self.h, &self.held, self.count, false);
                self.filled = 0;
            }
            let taken = piece.len().min(BLOCK_BYTES - self.filled);
            self.held[self.filled..self.filled + taken].copy_from_slice(&piece[..taken]);
            self.filled += taken;
            self.count += taken as u128;
            piece = &piece[taken..];
        }
    }

    /// The hash; bytes past the output length are not part of it.
    pub fn end(mut self) -> [u8; MOST_OUT] {
        self.held[self.filled..].fill(0);
        compress(&mut self.h, &self.held, self.count, true);
        bytes_of(&self.h)
    }
}

/// The hash of the pieces, one after another, as long as `out`.
pub fn hash(pieces: &[&[u8]], out: &mut [u8]) {
    let mut state = Blake2b::new(out.len());
    pieces.iter().for_each(|piece| state.feed(piece));
    out.copy_from_slice(&state.end()[..out.len()]);
}
