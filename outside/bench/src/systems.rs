//! Systems of equalities to tidy. Each has a solution: one without is over as soon as a constant is left over, and
//! FLINT, which takes the constant for one more word, would do other work for it.

use calls::sheets::Maker;
use calls::Random;

/// A kind of system that is timed.
pub struct Kind {
    pub name: &'static str,
    pub title: &'static str,
    pub p: u32,
    pub words: usize,
    pub eqs: usize,
    row: fn(&mut Maker) -> Vec<u32>,
}

pub const KINDS: [Kind; 3] = [
    Kind { name: "dense", title: "32 dense rows of 16 words, p = 32", p: 32, words: 16, eqs: 32, row: dense },
    Kind { name: "sparse", title: "6 sparse rows of 8 words, p = 32", p: 32, words: 8, eqs: 6, row: sparse },
    Kind { name: "powers", title: "16 rows of powers of two, p = 31", p: 31, words: 16, eqs: 16, row: powers },
];

fn dense(make: &mut Maker) -> Vec<u32> {
    (0..=make.n).map(|_| make.uniform()).collect()
}

fn sparse(make: &mut Maker) -> Vec<u32> {
    let mut row = vec![0; make.n + 1];
    for x in make.random.words(make.n, 3) {
        row[x as usize] = make.uniform();
    }
    row
}

fn powers(make: &mut Maker) -> Vec<u32> {
    (0..=make.n).map(|_| make.power()).collect()
}

impl Kind {
    /// A block with a system of this kind.
    pub fn block(&self, random: &mut Random) -> [u32; 544] {
        let make = &mut Maker { random, p: self.p, n: self.words };
        solvable(make, self.eqs, self.row)
    }
}

/// A block of rows whose constants are such that some assignment meets them all.
pub fn solvable(make: &mut Maker, eqs: usize, row: impl Fn(&mut Maker) -> Vec<u32>) -> [u32; 544] {
    let solution: Vec<u32> = (0..make.n).map(|_| make.uniform()).collect();
    let mut block = [0; 544];
    for to in block.chunks_mut(17).take(eqs) {
        let row = row(make);
        let row = make.with_value(row, &solution, 0);
        to[..make.n].copy_from_slice(&row[..make.n]);
        to[16] = row[make.n];
    }
    block
}
