//! The library's twin: the same algorithm, over the same block of equalities and with the others in blocks too, in the Rust that one
//! would write without proving it.
//! It is there to compare speed with, and so it is tuned: whatever the proofs cost in speed shows beside it.
//!
//! A sheet of n words is worked on as one of sixteen of which the words from n on occur nowhere: a row is always 17
//! numbers, the constant last.

mod bytes;
mod hide;
mod tidy;
mod word;

/// The coefficients of sixteen words, then the constant.
pub type Row = [u32; 17];

/// A row's place of its constant.
const CONSTANT: usize = 16;

/// The equalities of a sheet, each saying that its row is 0.
type Rows = [Row; 32];

/// The other constraints of a sheet: two sides each.
type Sides = [Row; 64];

/// What a call returns: a refusal's number and nothing else, or 0, the answer's length and the number of walks.
#[derive(Clone, Copy, PartialEq, Eq, Debug)]
pub struct Answer {
    pub refused: u8,
    pub length: usize,
    pub walks: usize,
}

pub use hide::hide;

/// The first `eqs` rows of the block become the reduced Howell form; the answer is how many rows there are then. Where
/// they have no solution there is one, 1 = 0. The numbers must be below 2^p.
pub fn tidy(rows: &mut [u32; 544], eqs: usize, p: u32) -> usize {
    let (rows, _) = rows.as_chunks_mut::<17>();
    tidy::equalities(rows.try_into().expect("544 numbers are 32 rows"), eqs, p)
}
