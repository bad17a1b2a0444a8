//! Holds the answers of several sides against each other.

use crate::answer::{PANICKED, SKIPPED};
use crate::case::{Case, parse};
use plain::Params;

/// The name of the side whose limits and order of checks are not 01's.
pub const CRATE: &str = "crate";

/// The name of the side that answers every case.
pub const PLAIN: &str = "plain";

/// The crate refuses under 8 blocks before it looks at the lanes.
const CRATE_LEAST_MEMORY: u32 = 8;

/// Whether the crate's answer to a case means what 01's answer means. It does, but for four kinds of input:
/// - 1: the crate takes an algorithm by name, so there is nothing to ask;
/// - 3 with a memory cost under 8: the crate looks at the memory first and gives 5;
/// - 4: 16 lanes are our limit; the crate's is 2^24-1, and a memory cost under 8p is 5 there;
/// - 6: 1,048,576 blocks are our limit; the crate has none and goes on to later checks.
///
/// Everywhere else its errors, told apart by the call that gives them, are 01's rows in 01's order.
pub fn crate_means_the_same(case: &Case, by_01: &str) -> bool {
    let (Case::Hash(job) | Case::Fill(job)) = case else { return true };
    match by_01.split(' ').next() {
        Some("1" | "4" | "6") => false,
        Some("3") => job.memory >= CRATE_LEAST_MEMORY,
        _ => true,
    }
}

/// Whether a side has no call for a case: there is none for a reference position, a step or a finish but the plain copy's,
/// and at a C host's boundary a configured length of 0 stands for absent.
pub fn may_skip(name: &str, case: &Case) -> bool {
    match case {
        Case::Position { .. } | Case::Step { .. } | Case::Finish { .. } => name != PLAIN,
        Case::Hash(job) | Case::Fill(job) => name != PLAIN && name != CRATE && job.configured == Some(0),
        Case::Long { .. } => false,
    }
}

/// What is wrong with an answer by itself: a panic always is, and a skip where the side has a call.
pub fn unsound(name: &str, case: &Case, answer: &str) -> Option<&'static str> {
    match answer {
        PANICKED => Some("panicked"),
        SKIPPED if !may_skip(name, case) => Some("skipped a case that it can be asked"),
        _ => None,
    }
}

/// Whether two sides' answers to a case can be compared at all.
fn comparable(case: &Case, one: &Answers, two: &Answers, at: usize) -> bool {
    let (first, second) = (&one.lines[at], &two.lines[at]);
    if first == SKIPPED || second == SKIPPED {
        return false;
    }
    match (one.name == CRATE, two.name == CRATE) {
        (true, false) => crate_means_the_same(case, second),
        (false, true) => crate_means_the_same(case, first),
        _ => true,
    }
}

/// A side's answers, a line for each case.
pub struct Answers {
    pub name: String,
    pub lines: Vec<String>,
}

/// How much a case asks for: the smallest that differs is the one to look at.
fn size(case: &Case, line: &str) -> (u64, usize) {
    let blocks = |params: Params| u64::from(params.memory) * u64::from(params.passes);
    match case {
        Case::Hash(job) | Case::Fill(job) => (blocks(job.params()), line.len()),
        _ => (0, line.len()),
    }
}

/// What has to have been compared: so many of the cases behind the first, which are edge cases.
pub struct Wanted {
    pub edges: usize,
    pub random: usize,
}

/// What two sides' answers came to.
fn pair(
    cases: &[String],
    parsed: &[Case],
    wanted: &Wanted,
    one: &Answers,
    two: &Answers,
) -> Result<String, String> {
    let compared: Vec<usize> =
        (0..cases.len()).filter(|at| comparable(&parsed[*at], one, two, *at)).collect();
    let differ: Vec<usize> = compared.iter().copied().filter(|at| one.lines[*at] != two.lines[*at]).collect();
    let accepted = compared.iter().filter(|at| one.lines[**at].starts_with("0 ")).count();
    let random = compared.iter().filter(|at| **at >= wanted.edges).count();
    let summary = format!(
        "{} and {}: {} cases, {} compared ({random} random; {accepted} accepted, {} refused), {} differ",
        one.name,
        two.name,
        cases.len(),
        compared.len(),
        compared.len() - accepted,
        differ.len()
    );
    match differ.into_iter().min_by_key(|at| size(&parsed[*at], &cases[*at])) {
        None if compared.is_empty() || random < wanted.random => Err(format!(
            "{summary}\n{random} random cases were compared, and {} are asked for",
            wanted.random
        )),
        None => Ok(summary),
        Some(at) => Err(format!(
            "{summary}\nthe smallest: {}\n  {}: {}\n  {}: {}",
            cases[at], one.name, one.lines[at], two.name, two.lines[at]
        )),
    }
}

/// Prints the first answer of each side that is wrong by itself; false if there is one.
fn each_sound(cases: &[String], parsed: &[Case], sides: &[Answers]) -> bool {
    let wrong = |side: &Answers| {
        let told = |at: usize| unsound(&side.name, &parsed[at], &side.lines[at]).map(|what| (at, what));
        (0..cases.len()).find_map(told)
    };
    let mut sound = true;
    for side in sides {
        if let Some((at, what)) = wrong(side) {
            println!("{} {what}: {}", side.name, cases[at]);
            sound = false;
        }
    }
    sound
}

/// Prints what every two sides came to; false if any differ, answer wrongly by themselves, or compared too little.
pub fn all(cases: &[String], wanted: &Wanted, sides: &[Answers]) -> bool {
    let parsed: Vec<Case> = cases.iter().map(|line| parse(line).expect("a case")).collect();
    let mut same = each_sound(cases, &parsed, sides);
    for (i, one) in sides.iter().enumerate() {
        for two in &sides[i + 1..] {
            let told = pair(cases, &parsed, wanted, one, two);
            same &= told.is_ok();
            println!("{}", told.unwrap_or_else(|differs| differs));
        }
    }
    same
}
