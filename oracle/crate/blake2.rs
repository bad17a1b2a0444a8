//! Stand-in for the crate `blake2`: what the crate's files name, over the plain BLAKE2b.

pub use digest::Digest;
use digest::Output;
use digest::block_api::{UpdateCore, VariableOutputCore};
use digest::block_buffer::LazyBuffer;
use plain::blake2b::{BLOCK_BYTES, Blake2b, MOST_OUT, State, bytes_of, compress, first_state};

pub mod digest {
    use std::ops::Deref;

    pub use hash::Digest;

    /// The bytes of a hash.
    pub struct Bytes(pub [u8; plain::blake2b::MOST_OUT]);

    /// The bytes of a `D`; there is one kind here.
    pub type Output<D> = <D as Digest>::Bytes;

    impl Default for Bytes {
        fn default() -> Self {
            Bytes([0; plain::blake2b::MOST_OUT])
        }
    }

    impl Deref for Bytes {
        type Target = [u8];

        fn deref(&self) -> &[u8] {
            &self.0
        }
    }

    impl AsRef<[u8]> for Bytes {
        fn as_ref(&self) -> &[u8] {
            &self.0
        }
    }

    mod hash {
        /// A hash of a fixed length.
        pub trait Digest: Sized {
            type Bytes;

            fn new() -> Self;
            fn update(&mut self, piece: impl AsRef<[u8]>);
            fn finalize(self) -> Self::Bytes;
            fn output_size() -> usize;

            fn digest(input: impl AsRef<[u8]>) -> Self::Bytes {
                let mut hash = Self::new();
                hash.update(input);
                hash.finalize()
            }
        }
    }

    pub mod block_api {
        use super::Bytes;
        use super::block_buffer::LazyBuffer;
        use plain::blake2b::BLOCK_BYTES;

        /// Takes in whole blocks, none of them the last.
        pub trait UpdateCore {
            fn update_blocks(&mut self, blocks: &[[u8; BLOCK_BYTES]]);
        }

        /// A hash whose length is chosen when it begins.
        pub trait VariableOutputCore: UpdateCore + Sized {
            fn new(length: usize) -> Result<Self, TooLong>;
            fn finalize_variable_core(&mut self, rest: &mut LazyBuffer, out: &mut Bytes);
        }

        /// No hash is that long.
        #[derive(Debug)]
        pub struct TooLong;
    }

    pub mod block_buffer {
        use plain::blake2b::BLOCK_BYTES;

        /// Input that is not yet a block with more input behind it.
        pub struct LazyBuffer(Vec<u8>);

        impl LazyBuffer {
            pub fn new(input: &[u8]) -> Self {
                LazyBuffer(input.to_vec())
            }

            /// Takes in more input; hands on the blocks that have some of it behind them.
            pub fn digest_blocks(&mut self, input: &[u8], mut taken: impl FnMut(&[[u8; BLOCK_BYTES]])) {
                self.0.extend_from_slice(input);
                let whole = self.0.len().saturating_sub(1) / BLOCK_BYTES;
                taken(&self.0.as_chunks().0[..whole]);
                self.0.drain(..BLOCK_BYTES * whole);
            }

            /// What is left, and the same with zeros to a whole block.
            pub fn last(&self) -> (usize, [u8; BLOCK_BYTES]) {
                let byte = |i| self.0.get(i).copied().unwrap_or(0);
                (self.0.len(), std::array::from_fn(byte))
            }
        }
    }
}

/// BLAKE2b of 64 bytes.
pub struct Blake2b512(Blake2b);

impl Digest for Blake2b512 {
    type Bytes = digest::Bytes;

    fn new() -> Self {
        Blake2b512(Blake2b::new(MOST_OUT))
    }

    fn update(&mut self, piece: impl AsRef<[u8]>) {
        self.0.feed(piece.as_ref());
    }

    fn finalize(self) -> Output<Self> {
        digest::Bytes(self.0.end())
    }

    fn output_size() -> usize {
        MOST_OUT
    }
}

/// BLAKE2b of a chosen length, block by block.
pub struct Blake2bVarCore {
    h: State,
    count: u128,
}

impl UpdateCore for Blake2bVarCore {
    fn update_blocks(&mut self, blocks: &[[u8; BLOCK_BYTES]]) {
        for block in blocks {
            self.count += BLOCK_BYTES as u128;
            compress(&mut self.h, block, self.count, false);
        }
    }
}

impl VariableOutputCore for Blake2bVarCore {
    fn new(length: usize) -> Result<Self, digest::block_api::TooLong> {
        if length > MOST_OUT {
            return Err(digest::block_api::TooLong);
        }
        Ok(Blake2bVarCore { h: first_state(length), count: 0 })
    }

    fn finalize_variable_core(&mut self, rest: &mut LazyBuffer, out: &mut digest::Bytes) {
        let (length, block) = rest.last();
        self.count += length as u128;
        compress(&mut self.h, &block, self.count, true);
        out.0 = bytes_of(&self.h);
    }
}
