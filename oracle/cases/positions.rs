//! Reference positions out of the crate's own arithmetic: a filling under the hook of crate/trace.rs.

use crate::answer::Side;
use crate::by_plain::Plain;
use crate::case::Case;
use crate::generate::Random;
use plain::{Params, Place, Reference};
use std::cell::RefCell;
use std::rc::Rc;
use traced::trace::{Seen, install};
use traced::{Algorithm, Argon2, Block, Version};

/// Lanes, memory cost and passes of a filling.
pub type Shape = (u32, u32, u32);

/// The fillings that are traced: every number of lanes, short and long segments, the most memory.
pub fn shapes() -> Vec<Shape> {
    let mut shapes = Vec::new();
    for lanes in 1..=Params::MOST_LANES {
        shapes.extend([(lanes, 8 * lanes, 3), (lanes, 13 * lanes + 1, 2), (lanes, 23 * lanes, 4)]);
    }
    let long = [(1, 516, 2), (2, 1032, 2), (3, 5000, 2), (7, 65_537, 2), (16, 262_144, 2)];
    shapes.extend(long);
    shapes.extend([(1, Params::MOST_MEMORY, 2), (16, Params::MOST_MEMORY, 2)]);
    shapes
}

/// A word whose halves are at an edge half of the time.
fn word(random: &mut Random, lanes: u32) -> u64 {
    let edges = [0, 1, 0xffff, 0x1_0000, 0x7fff_ffff, 0x8000_0000, 0xffff_fffe, 0xffff_ffff];
    let drawn = random.word();
    let high = random.one_of(&[0, 1, u64::from(lanes) - 1, u64::from(lanes), 0xffff_ffff, drawn >> 32]);
    let low = random.one_of(&edges);
    match drawn % 4 {
        0 => high << 32 | low,
        1 => high << 32 | drawn & 0xffff_ffff,
        _ => drawn,
    }
}

/// Everything that a filling of this shape refers to when it is given words from a seed.
pub fn trace(shape: Shape, seed: u64) -> Vec<(Case, Reference)> {
    let (lanes, memory, passes) = shape;
    let params = traced::Params::new(memory, passes, lanes, None).expect("a good shape");
    let mut blocks = vec![Block::new(); params.block_count()];
    let context = Argon2::new(Algorithm::Argon2d, Version::V0x13, params);
    let log = Rc::new(RefCell::new(Vec::new()));
    let (mut random, told) = (Random::new(seed), log.clone());
    let tell = move |seen| told.borrow_mut().push(reference(shape, seen));
    install(Box::new(move |_| word(&mut random, lanes)), Box::new(tell));
    context.fill_memory(b"password", b"somesalt", &mut blocks[..]).expect("a filling");
    install(Box::new(|word| word), Box::new(|_| ()));
    log.take()
}

/// What was seen, as a case and its answer.
fn reference((lanes, memory, passes): Shape, seen: Seen) -> (Case, Reference) {
    let place = Place {
        pass: seen.pass as u32,
        slice: seen.slice as u32,
        lane: seen.lane as u32,
        block: seen.block as u32,
    };
    let (lane, block) = (seen.reference_lane as u32, seen.reference_block as u32);
    let found = Reference { answer: plain::ACCEPTED, lane, block };
    (Case::Position { lanes, memory, passes, place, word: seen.word }, found)
}

/// Holds every reference of every shape against the plain copy's.
pub fn compare(seed: u64) -> Result<Vec<String>, String> {
    let mut count = 0;
    for shape in shapes() {
        for (case, found) in trace(shape, seed) {
            let ours = Plain.position(&case);
            if ours != Some(found) {
                return Err(format!("{case}\n  plain: {ours:?}\n  crate: {found:?}"));
            }
            count += 1;
        }
    }
    Ok(vec![format!("plain and crate: {count} positions of {} fillings, 0 differ", shapes().len())])
}
