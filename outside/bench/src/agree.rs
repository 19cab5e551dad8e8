//! Before anything is timed: library, twin and FLINT give the same Howell forms on thousands of random systems.

use crate::flint::Batch;
use crate::{library, systems};
use calls::sheets::Maker;
use calls::Random;

const SYSTEMS: usize = 4000;

/// What was compared, or the first system on which two of them differ.
pub fn check() -> Result<String, String> {
    let mut random = Random::new(21);
    let (mut solvable, mut with_flint) = (0, 0);
    for i in 0..SYSTEMS {
        let p = 1 + random.below(32) as u32;
        let words = 1 + random.index(16);
        let eqs = random.index(33);
        let block = system(&mut Maker { random: &mut random, p, n: words }, eqs);
        let mut tidied = block;
        let count = twin::tidy(&mut tidied, eqs, p);
        let rows: Vec<Vec<u32>> = tidied.chunks(17).take(count).map(<[u32]>::to_vec).collect();
        if library::PRESENT {
            let mut other = block;
            if library::tidy(&mut other, eqs, p) != count || other[..17 * count] != tidied[..17 * count] {
                return Err(format!("the library and the twin differ on system {i}: p {p}, {eqs} rows, {block:?}"));
            }
        }
        let has_solution = rows.iter().all(|row| row[..16].iter().any(|&a| a != 0));
        solvable += has_solution as usize;
        if let Some(mut batch) = Batch::new(1, eqs.max(words + 1), words + 1, p) {
            batch.set(0, &block);
            batch.howell();
            let theirs = batch.get(0);
            with_flint += 1;
            // FLINT takes the constant for a word more: where there is no solution, one of its rows has nothing else.
            // Where there is one, its form is ours, number by number.
            let wordless = theirs.iter().any(|row| row[..16].iter().all(|&a| a == 0));
            if wordless == has_solution || has_solution && theirs != rows {
                return Err(format!("FLINT and the twin differ on system {i}: p {p}, {eqs} rows, {block:?}"));
            }
        }
    }
    let mut who = vec!["twin"];
    who.extend(library::PRESENT.then_some("library"));
    who.extend((with_flint > 0).then_some("FLINT"));
    Ok(format!("The same forms on {SYSTEMS} random systems, {solvable} of them solvable: {}", who.join(", ")))
}

/// Rows of any kind, three in four of them with a solution.
fn system(make: &mut Maker, eqs: usize) -> [u32; 544] {
    let percent = *make.random.pick(&[20, 50, 100]);
    let common = if make.random.chance(50) { make.random.below(make.p as u64) as u32 } else { 0 };
    let top = make.top();
    let row = |make: &mut Maker| make.term(percent).iter().map(|&v| v << common & top).collect();
    let mut block = systems::solvable(make, eqs, row);
    if make.random.chance(25) && eqs > 0 {
        let i = make.random.index(eqs);
        block[17 * i + 16] = make.number();
    }
    block
}
