//! 01, "The program": one case in, one line out.

use crate::answer::ACCEPTED;
use crate::argon2::{Inputs, hash};
use crate::block::BLOCK_WORDS;
use crate::params::Params;

/// Blocks that the program lends.
const LENT_BLOCKS: usize = 56;

/// Numbers of section 1.
const NUMBERS: usize = 7;

/// The most bytes of another section.
const MOST_SECTION: u32 = 255;

/// The longest tag.
const MOST_TAG: u32 = 256;

/// Takes `n` bytes off the input.
fn take<'a>(input: &mut &'a [u8], n: usize) -> Option<&'a [u8]> {
    let (taken, rest) = input.split_at_checked(n)?;
    *input = rest;
    Some(taken)
}

/// Takes a number of 4 bytes off the input.
fn take_number(input: &mut &[u8]) -> Option<u32> {
    take(input, 4).map(|bytes| u32::from_le_bytes(std::array::from_fn(|i| bytes[i])))
}

/// Section 1: the seven numbers, the tag length last.
fn take_numbers(input: &mut &[u8]) -> Option<[u32; NUMBERS]> {
    if take_number(input)? != NUMBERS as u32 {
        return None;
    }
    let mut numbers = [0; NUMBERS];
    for number in &mut numbers {
        *number = take_number(input)?;
    }
    (numbers[NUMBERS - 1] <= MOST_TAG).then_some(numbers)
}

/// Sections 2 to 5: a count and as many bytes.
fn take_section<'a>(input: &mut &'a [u8]) -> Option<&'a [u8]> {
    let count = take_number(input)?;
    if count > MOST_SECTION { None } else { take(input, count as usize) }
}

/// The line for an input, without its newline; the error is the first faulty section.
fn answered(mut input: &[u8]) -> Result<String, u32> {
    let [algorithm, version, memory, passes, lanes, configured, tag] =
        take_numbers(&mut input).ok_or(1u32)?;
    let mut sections: [&[u8]; 4] = [&[]; 4];
    for (section, number) in sections.iter_mut().zip(2u32..) {
        *section = take_section(&mut input).ok_or(number)?;
    }
    if !input.is_empty() {
        return Err(6);
    }
    let [password, salt, secret, data] = sections;
    let configured = (configured != 0).then_some(configured);
    let params = Params { algorithm, version, memory, passes, lanes, configured };
    let mut words = vec![0; BLOCK_WORDS * LENT_BLOCKS];
    let mut out = vec![0; tag as usize];
    let inputs = Inputs { password, salt, secret, data };
    Ok(match hash(&params, &inputs, &mut words, &mut out) {
        ACCEPTED => out.iter().fold("tag ".into(), |line, byte| format!("{line}{byte:02x}")),
        answer => format!("refused {answer}"),
    })
}

/// The program's line for its whole input, with its newline.
pub fn line(input: &[u8]) -> String {
    let line = answered(input).unwrap_or_else(|section| format!("bad input {section}"));
    format!("{line}\n")
}
