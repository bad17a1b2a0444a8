//! 01, "Answers": numbers, and the first row of a list that holds.

/// A number of 01's table.
pub type Answer = u32;

/// Every check passed.
pub const ACCEPTED: Answer = 0;

/// An answer and the condition under which it is given.
pub type Row = (Answer, bool);

/// The most bytes that a count of 4 bytes can tell.
pub const MOST_BYTES: usize = 0xffff_ffff;

/// The answer of the first row that holds, or acceptance.
pub fn first(rows: &[&[Row]]) -> Answer {
    let holding = rows.iter().flat_map(|part| part.iter()).find(|row| row.1);
    holding.map_or(ACCEPTED, |row| row.0)
}
