//! The recorded lists: lines `CASE = ANSWER BY`, BY `crate` or, where the crate cannot say, `01`.

use crate::answer::{SKIPPED, Side, line};
use crate::by_plain::Plain;
use crate::case::parse;
use crate::compare::{CRATE, unsound};
use crate::jobs;

/// Asks a side for every recorded answer that it can give, and there has to be one.
pub fn replay(
    side: &dyn Side,
    name: &str,
    lines: impl Iterator<Item = std::io::Result<String>>,
) -> Result<(), String> {
    let (mut agreed, mut passed_over) = (0, 0);
    for text in lines {
        let text = text.map_err(|error| error.to_string())?;
        if text.starts_with('#') {
            continue;
        }
        let (case, told) = text.split_once(" = ").ok_or(format!("no record: {text}"))?;
        let (expected, by) = told.rsplit_once(' ').ok_or(format!("no record: {text}"))?;
        let case = parse(case).ok_or(format!("no case: {text}"))?;
        let answer = line(side, &case);
        if let Some(what) = unsound(name, &case, &answer) {
            return Err(format!("{text}\n  {name} {what}"));
        }
        if answer == SKIPPED || name == CRATE && by != CRATE {
            passed_over += 1;
        } else if answer == expected {
            agreed += 1;
        } else {
            return Err(format!("{text}\n  now: {answer}"));
        }
    }
    if agreed == 0 {
        return Err(format!("no recorded answer was given again, {passed_over} not asked"));
    }
    println!("{agreed} recorded answers given again, {passed_over} not asked");
    Ok(())
}

/// The first line of a list.
const HEAD: &str = "# Recorded by `oracle/record`; the format is oracle/README.md's.";

/// The list of steps and finishes, for which 01 is the oracle.
pub fn jobs() -> impl Iterator<Item = String> {
    let head = [HEAD, "# CASE = ANSWER BY"].map(String::from);
    let cases = jobs::cases().into_iter().map(|case| format!("{case} = {} 01", line(&Plain, &case)));
    head.into_iter().chain(cases)
}

#[cfg(crate_at_hand)]
pub use made::{hashes, positions};

/// Making the lists takes the crate.
#[cfg(crate_at_hand)]
mod made {
    use super::*;
    use crate::case::{Bytes, Case, Job};
    use crate::compare::crate_means_the_same;
    use crate::generate::{self, Random};
    use crate::positions::{shapes, trace};
    use plain::{BLOCK_WORDS, Params, Place};

    /// The most memory that a recorded job is lent: one lane with segments of 129 blocks.
    const MOST_WORDS: usize = 516 * BLOCK_WORDS;

    /// The longest recorded output and input.
    const MOST_BYTES: usize = 256;

    /// Whether a program can hold all that the case lends.
    fn fits(case: &Case) -> bool {
        let short = |bytes: &Bytes| matches!(bytes, Bytes::Told(told) if told.len() <= MOST_BYTES);
        match case {
            Case::Hash(Job { words, tag, password, salt, secret, data, .. })
            | Case::Fill(Job { words, tag, password, salt, secret, data, .. }) => {
                *words <= MOST_WORDS
                    && *tag <= MOST_BYTES
                    && [password, salt, secret, data].into_iter().all(short)
            }
            Case::Long { length, input, .. } => *length <= MOST_BYTES && short(input),
            _ => true,
        }
    }

    /// The line of a case, answered by the crate where it means what 01 means.
    fn recorded(by_crate: &dyn Side, case: &Case) -> String {
        let by_01 = line(&Plain, case);
        if crate_means_the_same(case, &by_01) {
            format!("{case} = {} crate", line(by_crate, case))
        } else {
            format!("{case} = {by_01} 01")
        }
    }

    /// The list of whole hashes, fillings and variable-length hashes.
    pub fn hashes(by_crate: &dyn Side) -> impl Iterator<Item = String> {
        let head = [HEAD.to_string(), "# CASE = ANSWER BY".to_string()];
        let cases = generate::recorded().into_iter().filter(fits);
        head.into_iter().chain(cases.map(|case| recorded(by_crate, &case)))
    }

    /// Positions that are refused, at the boundaries of rows 3 to 7 and 17.
    fn refused() -> Vec<Case> {
        let most = Params::MOST_MEMORY;
        let costs = [
            (0, 8, 1),
            (0, 0, 0),
            (17, 136, 1),
            (17, 0, 0),
            (u32::MAX, u32::MAX, 1),
            (1, 7, 1),
            (16, 127, 1),
        ];
        let more = [(16, 127, 0), (1, most + 1, 1), (16, most + 1, 0), (1, 8, 0), (1, u32::MAX, 0)];
        let inside = Place { pass: 0, slice: 1, lane: 0, block: 0 };
        let at = |(lanes, memory, passes), place, word| Case::Position { lanes, memory, passes, place, word };
        let mut cases: Vec<Case> = costs.into_iter().chain(more).map(|costs| at(costs, inside, 5)).collect();
        let segment = Place { block: 3, ..inside };
        let outside = [
            Place { pass: 3, ..inside },
            Place { pass: u32::MAX, ..inside },
            Place { slice: 4, ..inside },
            Place { slice: u32::MAX, ..inside },
            Place { lane: 2, ..inside },
            Place { lane: u32::MAX, ..inside },
            segment,
            Place { pass: 2, slice: 3, lane: 1, block: 3 },
            Place { block: u32::MAX, ..inside },
            Place { slice: 0, ..inside },
            Place { slice: 0, block: 1, ..inside },
        ];
        cases.extend(
            outside.into_iter().flat_map(|place| [0, u64::MAX].map(|word| at((2, 24, 3), place, word))),
        );
        cases.extend(outside.into_iter().map(|place| at((2, 15, 0), place, 1)));
        cases
    }

    /// Whether a block is one of the first or the last three of its segment.
    fn at_an_edge(case: &Case) -> bool {
        let Case::Position { lanes, memory, place, .. } = *case else { return false };
        place.block < 3 || place.block + 3 >= memory / (Params::SLICES as u32 * lanes)
    }

    /// So many entries of a list, in its order.
    fn sample<T: Clone>(list: &[T], count: usize, random: &mut Random) -> Vec<T> {
        let mut chosen: Vec<usize> = (0..count).map(|_| random.between(0, list.len() - 1)).collect();
        chosen.sort();
        chosen.dedup();
        chosen.into_iter().map(|at| list[at].clone()).collect()
    }

    /// The list of reference positions: a sample of each traced filling, half of it at the edges of the
    /// segments, then refusals from the plain copy.
    pub fn positions() -> impl Iterator<Item = String> {
        let mut lines = vec![
            HEAD.to_string(),
            "# position P M T PASS SLICE LANE BLOCK WORD = ANSWER LANE BLOCK BY".to_string(),
        ];
        for (shape, seed) in shapes().into_iter().zip(1..) {
            let (edge, inner): (Vec<_>, Vec<_>) =
                trace(shape, seed).into_iter().partition(|seen| at_an_edge(&seen.0));
            let mut random = Random::new(seed);
            for list in [edge, inner].iter().filter(|list| !list.is_empty()) {
                for (case, found) in sample(list, 60, &mut random) {
                    lines.push(format!("{case} = {} {} {} crate", found.answer, found.lane, found.block));
                }
            }
        }
        lines.extend(refused().iter().map(|case| format!("{case} = {} 01", line(&Plain, case))));
        lines.into_iter()
    }
}
