//! A case, and its line in the protocol that README.md gives.

use plain::{BLOCK_WORDS, POSITIONS, Params, Place};
use std::fmt;

/// Bytes of a case: told in hex, or so many zeros.
#[derive(Clone, Debug, PartialEq, Eq)]
pub enum Bytes {
    Told(Vec<u8>),
    Zeros(usize),
}

impl Bytes {
    /// The bytes themselves, or none where so many cannot be had.
    pub fn had(&self) -> Option<Vec<u8>> {
        match self {
            Bytes::Told(bytes) => Some(bytes.clone()),
            Bytes::Zeros(length) => zeros(*length),
        }
    }
}

/// So many zero bytes that the system hands out untouched, so that 4 GiB cost nothing until they are read.
pub fn zeros(length: usize) -> Option<Vec<u8>> {
    if length == 0 {
        return Some(Vec::new());
    }
    let layout = std::alloc::Layout::array::<u8>(length).ok()?;
    // SAFETY: the layout is not empty, and a vector of that capacity gives the bytes back with it.
    unsafe {
        let start = std::alloc::alloc_zeroed(layout);
        (!start.is_null()).then(|| Vec::from_raw_parts(start, length, length))
    }
}

/// A whole hash or a filling.
#[derive(Clone, Debug, PartialEq, Eq)]
pub struct Job {
    pub algorithm: u32,
    pub version: u32,
    pub memory: u32,
    pub passes: u32,
    pub lanes: u32,
    pub configured: Option<u32>,
    /// The length of the output; a filling has none.
    pub tag: usize,
    /// How many words are lent.
    pub words: usize,
    /// What words and output hold before the call.
    pub seed: u64,
    pub password: Bytes,
    pub salt: Bytes,
    pub secret: Bytes,
    pub data: Bytes,
}

impl Job {
    /// The numbers, as the plain copy takes them.
    pub fn params(&self) -> Params {
        Params {
            algorithm: self.algorithm,
            version: self.version,
            memory: self.memory,
            passes: self.passes,
            lanes: self.lanes,
            configured: self.configured,
        }
    }

    /// The words that its blocks take.
    pub fn needed(&self) -> usize {
        BLOCK_WORDS * self.params().blocks()
    }
}

/// One call.
#[derive(Clone, Debug, PartialEq, Eq)]
pub enum Case {
    Hash(Job),
    Fill(Job),
    Long { length: usize, seed: u64, input: Bytes },
    Position { lanes: u32, memory: u32, passes: u32, place: Place, word: u64 },
    Step { job: plain::Job, words: usize, seed: u64, lane: u32 },
    Finish { job: plain::Job, words: usize, seed: u64, length: usize },
}

impl fmt::Display for Bytes {
    fn fmt(&self, f: &mut fmt::Formatter<'_>) -> fmt::Result {
        match self {
            Bytes::Told(bytes) => f.write_str(&hex(bytes)),
            Bytes::Zeros(length) => write!(f, "z{length}"),
        }
    }
}

/// The six numbers of a job or of parameters, each before a space.
fn write_params(f: &mut fmt::Formatter<'_>, params: &Params) -> fmt::Result {
    write!(f, "{} {} {} ", params.algorithm, params.version, params.memory)?;
    write!(f, "{} {} ", params.passes, params.lanes)?;
    match params.configured {
        Some(length) => write!(f, "{length} "),
        None => f.write_str("- "),
    }
}

/// Numbers with a comma between each two.
pub fn commas(numbers: &[u32]) -> String {
    numbers.iter().map(u32::to_string).collect::<Vec<_>>().join(",")
}

/// A job of turns as far as the words that are lent it.
fn write_turns(f: &mut fmt::Formatter<'_>, job: &plain::Job, words: usize, seed: u64) -> fmt::Result {
    write_params(f, &job.params)?;
    write!(f, "{} {} {} {} {words} {seed}", job.tag, job.pass, job.slice, commas(&job.positions))
}

impl fmt::Display for Job {
    fn fmt(&self, f: &mut fmt::Formatter<'_>) -> fmt::Result {
        write_params(f, &self.params())?;
        write!(f, "{} {} {} ", self.tag, self.words, self.seed)?;
        write!(f, "{} {} {} {}", self.password, self.salt, self.secret, self.data)
    }
}

impl fmt::Display for Case {
    fn fmt(&self, f: &mut fmt::Formatter<'_>) -> fmt::Result {
        match self {
            Case::Hash(job) => write!(f, "hash {job}"),
            Case::Fill(job) => write!(f, "fill {job}"),
            Case::Long { length, seed, input } => write!(f, "long {length} {seed} {input}"),
            Case::Position { lanes, memory, passes, place, word } => {
                write!(f, "position {lanes} {memory} {passes} {} {} ", place.pass, place.slice)?;
                write!(f, "{} {} {word}", place.lane, place.block)
            }
            Case::Step { job, words, seed, lane } => {
                f.write_str("step ")?;
                write_turns(f, job, *words, *seed)?;
                write!(f, " {lane}")
            }
            Case::Finish { job, words, seed, length } => {
                f.write_str("finish ")?;
                write_turns(f, job, *words, *seed)?;
                write!(f, " {length}")
            }
        }
    }
}

/// Lower-case hex, `-` for no bytes.
pub fn hex(bytes: &[u8]) -> String {
    if bytes.is_empty() {
        return "-".into();
    }
    let digits = bytes.iter().flat_map(|byte| [byte >> 4, byte & 15]);
    digits.map(|digit| b"0123456789abcdef"[digit as usize] as char).collect()
}

/// The bytes of a field.
fn bytes(field: &str) -> Option<Bytes> {
    if let Some(length) = field.strip_prefix('z') {
        return length.parse().ok().map(Bytes::Zeros);
    }
    let digits = if field == "-" { "" } else { field };
    let byte = |at| u8::from_str_radix(digits.get(at..at + 2)?, 16).ok();
    (0..digits.len()).step_by(2).map(byte).collect::<Option<_>>().map(Bytes::Told)
}

/// The fields of a line, one after another.
struct Fields<'a>(std::str::SplitWhitespace<'a>);

impl Fields<'_> {
    fn number<T: std::str::FromStr>(&mut self) -> Option<T> {
        self.0.next()?.parse().ok()
    }

    fn configured(&mut self) -> Option<Option<u32>> {
        match self.0.next()? {
            "-" => Some(None),
            field => field.parse().ok().map(Some),
        }
    }

    fn bytes(&mut self) -> Option<Bytes> {
        bytes(self.0.next()?)
    }

    fn params(&mut self) -> Option<Params> {
        Some(Params {
            algorithm: self.number()?,
            version: self.number()?,
            memory: self.number()?,
            passes: self.number()?,
            lanes: self.number()?,
            configured: self.configured()?,
        })
    }

    fn positions(&mut self) -> Option<[u32; POSITIONS]> {
        let told: Option<Vec<u32>> = self.0.next()?.split(',').map(|number| number.parse().ok()).collect();
        told?.try_into().ok()
    }

    fn turns(&mut self) -> Option<plain::Job> {
        Some(plain::Job {
            params: self.params()?,
            tag: self.number()?,
            pass: self.number()?,
            slice: self.number()?,
            positions: self.positions()?,
        })
    }

    fn job(&mut self) -> Option<Job> {
        let Params { algorithm, version, memory, passes, lanes, configured } = self.params()?;
        Some(Job {
            algorithm,
            version,
            memory,
            passes,
            lanes,
            configured,
            tag: self.number()?,
            words: self.number()?,
            seed: self.number()?,
            password: self.bytes()?,
            salt: self.bytes()?,
            secret: self.bytes()?,
            data: self.bytes()?,
        })
    }

    fn position(&mut self) -> Option<Case> {
        let (lanes, memory, passes) = (self.number()?, self.number()?, self.number()?);
        let (pass, slice) = (self.number()?, self.number()?);
        let place = Place { pass, slice, lane: self.number()?, block: self.number()? };
        Some(Case::Position { lanes, memory, passes, place, word: self.number()? })
    }
}

/// The case of a line, if it is one.
pub fn parse(line: &str) -> Option<Case> {
    let mut fields = Fields(line.split_whitespace());
    let case = match fields.0.next()? {
        "hash" => Case::Hash(fields.job()?),
        "fill" => Case::Fill(fields.job()?),
        "long" => {
            let (length, seed) = (fields.number()?, fields.number()?);
            Case::Long { length, seed, input: fields.bytes()? }
        }
        "position" => fields.position()?,
        "step" => {
            let (job, words) = (fields.turns()?, fields.number()?);
            Case::Step { job, words, seed: fields.number()?, lane: fields.number()? }
        }
        "finish" => {
            let (job, words) = (fields.turns()?, fields.number()?);
            Case::Finish { job, words, seed: fields.number()?, length: fields.number()? }
        }
        _ => return None,
    };
    fields.0.next().is_none().then_some(case)
}
