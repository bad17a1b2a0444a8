//! Stand-in for the crate `base64ct`: the unpadded alphabet that the text forms name. No case uses it.

use std::fmt;

/// The text is no base64, or does not fit.
#[derive(Clone, Copy, Debug, PartialEq, Eq)]
pub struct Error;

impl fmt::Display for Error {
    fn fmt(&self, f: &mut fmt::Formatter<'_>) -> fmt::Result {
        f.write_str("not base64")
    }
}

impl std::error::Error for Error {}

/// Reads text into lent bytes.
pub trait Encoding {
    fn decode(text: impl AsRef<[u8]>, out: &mut [u8]) -> Result<&[u8], Error>;
}

/// Base64 without `=` at its end.
pub struct Base64Unpadded;

/// The six bits of a character.
fn bits(character: u8) -> Result<u32, Error> {
    let alphabet = (b'A'..=b'Z').chain(b'a'..=b'z').chain(b'0'..=b'9').chain([b'+', b'/']);
    let found = alphabet.zip(0..).find(|(letter, _)| *letter == character);
    found.map(|(_, place)| place).ok_or(Error)
}

impl Encoding for Base64Unpadded {
    fn decode(text: impl AsRef<[u8]>, out: &mut [u8]) -> Result<&[u8], Error> {
        let mut written = 0;
        for group in text.as_ref().chunks(4) {
            let length = group.len() * 6 / 8;
            let mut sum = 0;
            for place in 0..4 {
                sum = sum << 6 | group.get(place).map_or(Ok(0), |letter| bits(*letter))?;
            }
            let bytes = &sum.to_be_bytes()[1..];
            if length == 0 || bytes[length..].iter().any(|byte| *byte != 0) {
                return Err(Error);
            }
            let target = out.get_mut(written..written + length).ok_or(Error)?;
            target.copy_from_slice(&bytes[..length]);
            written += length;
        }
        Ok(&out[..written])
    }
}
