//! What a sheet means, by trying every assignment: only for small widths and few words.

use crate::sheet::{Sheet, Term};
use std::collections::BTreeSet;

/// The value of a term under an assignment.
pub fn value(term: &Term, assignment: &[u64], p: u32) -> u64 {
    let words = assignment.len();
    let sum: u64 = term[..words].iter().zip(assignment).map(|(&c, &v)| c * v).sum();
    (sum + term[words]) % (1 << p)
}

/// Whether every constraint holds under an assignment.
pub fn holds(sheet: &Sheet, assignment: &[u64]) -> bool {
    let p = sheet.width;
    sheet.constraints.iter().all(|c| c.kind.compares(value(&c.left, assignment, p), value(&c.right, assignment, p)))
}

/// Every assignment of values below 2^p to so many words.
pub fn assignments(p: u32, words: usize) -> impl Iterator<Item = Vec<u64>> {
    let bits = p as usize * words;
    assert!(bits <= 24, "too many assignments to try");
    (0..1u64 << bits).map(move |all| (0..words).map(|x| all >> (x as u32 * p) & ((1 << p) - 1)).collect())
}

/// The assignments under which the sheet holds, the hidden words' values left out.
pub fn projection(sheet: &Sheet, hidden: &[usize]) -> BTreeSet<Vec<u64>> {
    assignments(sheet.width, sheet.words)
        .filter(|assignment| holds(sheet, assignment))
        .map(|assignment| without(&assignment, hidden))
        .collect()
}

/// Demand 2 for the words that were hidden: the answer has none of them, and it holds under an assignment exactly when
/// some values of theirs make the input hold.
pub fn answers(input: &Sheet, answer: &Sheet, hidden: &[usize]) -> Result<(), String> {
    if (input.width, input.words) != (answer.width, answer.words) {
        return Err("the answer does not keep p and n".to_string());
    }
    if let Some(x) = hidden.iter().find(|&&x| answer.has(x)) {
        return Err(format!("word {x} is hidden and occurs in the answer"));
    }
    let wanted = projection(input, hidden);
    for assignment in assignments(input.width, input.words) {
        let held = holds(answer, &assignment);
        if held != wanted.contains(&without(&assignment, hidden)) {
            return Err(format!("at {assignment:?} the answer says {held}, and the input says the opposite"));
        }
    }
    Ok(())
}

fn without(assignment: &[u64], hidden: &[usize]) -> Vec<u64> {
    (0..assignment.len()).filter(|x| !hidden.contains(x)).map(|x| assignment[x]).collect()
}
