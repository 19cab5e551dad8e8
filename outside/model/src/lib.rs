//! An independent implementation of the rules (document 01): the same calls, written from the rules' sentences and in
//! another manner than the library, so that the two can be held against each other.
//!
//! It is clear rather than fast. A term is a vector, equalities are brought to the reduced Howell form by eliminating
//! one column of the whole matrix after the other, and every try of a word works on a copy of the sheet. [`listing`] is
//! the text that the program prints. [`meaning`] says what a sheet means by trying every assignment; it uses nothing of
//! the rest but the sheet's type.

pub mod bytes;
mod listing;
pub mod meaning;
mod number;
mod sheet;
mod tidy;
mod walk;

pub use listing::listing;
pub use sheet::{Constraint, Kind, Sheet, Term};
pub use tidy::{howell, tidy};
pub use walk::{hide_words, Fate, Walked};

/// What a call returns: a refusal's number and nothing else, or 0, the answer's length and the number of walks.
#[derive(Clone, Copy, PartialEq, Eq, Debug)]
pub struct Answer {
    pub refused: u8,
    pub length: usize,
    pub walks: usize,
}

/// The whole call, from bytes to bytes.
pub fn hide(sheet: &[u8], list: &[u8], out: &mut [u8], fates: &mut [u8]) -> Answer {
    let refused = bytes::refusal(sheet, list, out.len(), fates.len());
    if refused != 0 {
        return Answer { refused, length: 0, walks: 0 };
    }
    let words: Vec<usize> = list.iter().map(|&x| x as usize).collect();
    let walked = hide_words(&bytes::read(sheet), &words);
    let answer = bytes::write(&walked.sheet);
    out[..answer.len()].copy_from_slice(&answer);
    for (place, fate) in fates.iter_mut().zip(&walked.fates) {
        *place = *fate as u8;
    }
    Answer { refused: 0, length: answer.len(), walks: walked.walks }
}
