//! compare-oracle: makes cases, answers them from the plain copy or the crate, and compares answers.
//! README.md gives the commands and the protocol.

mod answer;
#[cfg(crate_at_hand)]
mod by_crate;
mod by_plain;
mod case;
mod compare;
mod generate;
mod jobs;
#[cfg(crate_at_hand)]
mod positions;
mod record;

use answer::Side;
use std::io::{BufRead, BufWriter, Read, Write, stdin, stdout};
use std::process::ExitCode;

const USAGE: &str = "compare-oracle generate [--cases N] [--edges E] [--seed S]
compare-oracle large
compare-oracle sides                    the sides that were built
compare-oracle answer plain|crate       cases on standard input
compare-oracle compare [--edges E] [--random R] CASES NAME=ANSWERS NAME=ANSWERS ..
compare-oracle program                  one input of 01's program on standard input
compare-oracle positions [--seed S]     the crate's references against the plain copy's
compare-oracle record hashes|positions|jobs
compare-oracle replay plain|crate       a recorded list on standard input";

/// What went wrong, or that nothing did.
type Done = Result<(), String>;

/// The side of a name.
fn side(name: &str) -> Result<Box<dyn Side>, String> {
    match name {
        "plain" => Ok(Box::new(by_plain::Plain)),
        #[cfg(crate_at_hand)]
        "crate" => Ok(Box::new(by_crate::Crate)),
        _ => Err(format!("no side {name} was built")),
    }
}

/// The number after an option.
fn option(words: &[String], name: &str, otherwise: u64) -> Result<u64, String> {
    match words.iter().position(|word| word == name) {
        None => Ok(otherwise),
        Some(at) => {
            let number = words.get(at + 1).and_then(|word| word.parse().ok());
            number.ok_or(format!("{name} wants a number"))
        }
    }
}

/// The words that are neither options nor their numbers.
fn without_options(words: &[String]) -> Vec<&str> {
    let named = |at: usize| words[at].starts_with("--");
    let kept = (0..words.len()).filter(|at| !named(*at) && !(*at > 0 && named(*at - 1)));
    kept.map(|at| words[at].as_str()).collect()
}

/// Writes lines to standard output.
fn print(lines: impl Iterator<Item = String>) -> Done {
    let mut out = BufWriter::new(stdout().lock());
    for line in lines {
        writeln!(out, "{line}").map_err(|error| error.to_string())?;
    }
    out.flush().map_err(|error| error.to_string())
}

/// The lines of a file.
fn lines(path: &str) -> Result<Vec<String>, String> {
    let text = std::fs::read_to_string(path).map_err(|error| format!("{path}: {error}"))?;
    Ok(text.lines().map(String::from).collect())
}

/// Answers the cases of standard input, each as soon as it is read.
fn answer_all(side: &dyn Side) -> Done {
    let mut out = BufWriter::new(stdout().lock());
    for line in stdin().lock().lines() {
        let line = line.map_err(|error| error.to_string())?;
        let case = case::parse(&line).ok_or(format!("no case: {line}"))?;
        writeln!(out, "{}", answer::line(side, &case)).map_err(|error| error.to_string())?;
    }
    out.flush().map_err(|error| error.to_string())
}

/// Compares the answers of NAME=FILE words on the cases of a file, the first word.
fn compare_files(words: &[String]) -> Done {
    let (most, random) =
        (option(words, "--edges", u64::MAX)? as usize, option(words, "--random", 0)? as usize);
    let words = without_options(words);
    let [path, words @ ..] = &words[..] else { return Err(USAGE.into()) };
    let cases = lines(path)?;
    if cases.is_empty() || words.len() < 2 {
        return Err(format!(
            "{path} has {} cases for {} sides: nothing is compared",
            cases.len(),
            words.len()
        ));
    }
    let mut sides = Vec::new();
    for word in words {
        let (name, path) = word.split_once('=').ok_or(format!("{word} is not NAME=ANSWERS"))?;
        let lines = lines(path)?;
        if lines.len() != cases.len() {
            return Err(format!("{path} has {} answers to {} cases", lines.len(), cases.len()));
        }
        sides.push(compare::Answers { name: name.into(), lines });
    }
    let wanted = compare::Wanted { edges: generate::edges_among(cases.len(), most), random };
    if compare::all(&cases, &wanted, &sides) {
        Ok(())
    } else {
        Err("this is not a comparison that holds".into())
    }
}

/// Writes the program's line for the input that stands on standard input.
fn program() -> Done {
    let mut input = Vec::new();
    stdin().read_to_end(&mut input).map_err(|error| error.to_string())?;
    print!("{}", plain::line(&input));
    Ok(())
}

/// Does what the words say.
fn run(words: &[String]) -> Done {
    let named: Vec<&str> = words.iter().map(String::as_str).collect();
    match named[..] {
        ["generate", ..] => {
            let (count, seed) = (option(words, "--cases", 20_000)?, option(words, "--seed", 1)?);
            let edges = option(words, "--edges", count)?;
            print(generate::cases(count as usize, edges as usize, seed).map(|case| case.to_string()))
        }
        ["large"] => print(generate::large().iter().map(ToString::to_string)),
        ["sides"] => print(
            [compare::PLAIN, compare::CRATE]
                .iter()
                .filter(|name| side(name).is_ok())
                .map(ToString::to_string),
        ),
        ["answer", name] => answer_all(&*side(name)?),
        ["compare", ..] => compare_files(&words[1..]),
        ["program"] => program(),
        #[cfg(crate_at_hand)]
        ["positions", ..] => print(positions::compare(option(words, "--seed", 1)?)?.into_iter()),
        ["record", "jobs"] => print(record::jobs()),
        #[cfg(crate_at_hand)]
        ["record", "hashes"] => print(record::hashes(&*side("crate")?)),
        #[cfg(crate_at_hand)]
        ["record", "positions"] => print(record::positions()),
        ["replay", name] => record::replay(&*side(name)?, name, stdin().lock().lines()),
        _ => Err(USAGE.into()),
    }
}

fn main() -> ExitCode {
    let words: Vec<String> = std::env::args().skip(1).collect();
    match run(&words) {
        Ok(()) => ExitCode::SUCCESS,
        Err(wrong) => {
            eprintln!("{wrong}");
            ExitCode::FAILURE
        }
    }
}
