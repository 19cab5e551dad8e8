//! Hides words from a conjunction of linear constraints modulo 2^p: the safe face of the proved static library.
//!
//! A **sheet** is a string of bytes: a header and then constraints between sums of words. A **list** is a string of
//! bytes too, each a word's number from 0. [`hide`] answers with a sheet over the other words that holds exactly when
//! some values of the hidden words make the input hold, and with one **fate** for each listed word: 0 left, 1 absent,
//! 2 hidden by Layer1, 3 hidden by Layer2. A word that is left may still occur in the answer.
//!
//! The sheet in bytes, all numbers big-endian: four bytes with the count of bytes that follow; version (1), width p,
//! number of words n, number of constraints m, one byte each; then m constraints of a kind byte (0 equal, 1 different,
//! 2 at most, 3 below), the left term and the right term. A term is n coefficients and a constant, four bytes each.
//!
//! # Example
//!
//! With words x, y and z at p = 3, hide x from 6x + y = 4, 2x + z ≠ 0, 4x + y ≤ 3:
//!
//! ```
//! fn sheet(p: u8, constraints: &[(u8, [u32; 4], [u32; 4])]) -> Vec<u8> {
//!     let mut body = vec![1, p, 3, constraints.len() as u8];
//!     for (kind, left, right) in constraints {
//!         body.push(*kind);
//!         body.extend(left.iter().chain(right).flat_map(|v| v.to_be_bytes()));
//!     }
//!     let mut bytes = (body.len() as u32).to_be_bytes().to_vec();
//!     bytes.extend(body);
//!     bytes
//! }
//!
//! let input = sheet(3, &[
//!     (0, [6, 1, 0, 0], [0, 0, 0, 4]),
//!     (1, [2, 0, 1, 0], [0, 0, 0, 0]),
//!     (2, [4, 1, 0, 0], [0, 0, 0, 3]),
//! ]);
//! let mut out = vec![0; vietoluyn::room(3)];
//! let mut fates = [0];
//! let accepted = vietoluyn::hide(&input, &[0], &mut out, &mut fates).unwrap();
//!
//! // 4y = 0, 5y + z + 4 ≠ 0, 3y ≤ 3: x is gone, by Layer1, in one walk.
//! let answer = sheet(3, &[
//!     (0, [0, 4, 0, 0], [0, 0, 0, 0]),
//!     (1, [0, 5, 1, 4], [0, 0, 0, 0]),
//!     (2, [0, 3, 0, 0], [0, 0, 0, 3]),
//! ]);
//! assert_eq!(out[..accepted.length], answer);
//! assert_eq!(fates, [2]);
//! assert_eq!(accepted.walks, 1);
//! ```

mod library;
mod refusal;

pub use refusal::Refusal;

/// What an accepted call returns.
#[derive(Clone, Copy, PartialEq, Eq, Debug)]
pub struct Accepted {
    /// How many bytes of the sheet buffer the answer takes.
    pub length: usize,
    /// How often the list was walked: at most its length.
    pub walks: usize,
}

/// The length that the sheet buffer needs for a sheet of n words, whatever its constraints: 8 + 48 × (1 + 8 × (n + 1)).
pub const fn room(n: usize) -> usize {
    8 + 48 * (1 + 8 * (n + 1))
}

/// Hides the listed words. Writes the answer to the front of `out`, which must be [`room`] long for the sheet's words,
/// and one fate for each listed word to the front of `fates`. Bytes beyond these stay, and a refused call changes
/// neither buffer.
///
/// ```
/// let mut out = [7; 100];
/// let refused = vietoluyn::hide(&[0, 0, 0, 4, 2, 3, 1, 0], &[], &mut out, &mut []);
/// assert_eq!(refused, Err(vietoluyn::Refusal::Version));
/// assert_eq!(out, [7; 100]);
/// ```
pub fn hide(sheet: &[u8], list: &[u8], out: &mut [u8], fates: &mut [u8]) -> Result<Accepted, Refusal> {
    let answer = library::hide(sheet, list, out, fates);
    match Refusal::of(answer.refused) {
        Some(refusal) => Err(refusal),
        None => Ok(Accepted { length: answer.length as usize, walks: answer.walks as usize }),
    }
}

/// Tidies equalities alone, for benchmarks: the first `eqs` of the block's 32 rows of 17 numbers, sixteen coefficients
/// and a constant, each saying that its sum is 0, become the reduced Howell form, or the row 1 = 0 where they have no
/// solution. The answer is how many rows there are then. Nothing changes, and the answer is none, where `eqs` is above
/// 32, p is 0 or above 32, or a number is 2^p or more.
pub fn tidy(rows: &mut [u32; 544], eqs: usize, p: u32) -> Option<usize> {
    match library::tidy(rows, eqs, p) {
        255 => None,
        count => Some(count as usize),
    }
}
