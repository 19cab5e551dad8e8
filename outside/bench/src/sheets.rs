//! Whole calls to time. The sheets have solutions and equalities that leave words free, so that every step has work.

use calls::sheets::{Draft, Maker, Term, AT_MOST, BELOW, DIFFERENT, EQUAL};
use calls::{size, Call, Random};

/// What a sheet is made of.
#[derive(Clone, Copy)]
pub struct Shape {
    pub p: u32,
    pub words: usize,
    pub equalities: usize,
    pub others: usize,
    pub listed: usize,
}

pub const FULL: Shape = Shape { p: 32, words: 16, equalities: 32, others: 32, listed: 16 };
pub const TYPICAL: Shape = Shape { p: 16, words: 8, equalities: 4, others: 6, listed: 4 };

/// A call of this shape. The equalities are sums of multiples of a few rows, some of them even; the others are
/// disequalities and inequalities of three words that hold at the solution.
pub fn call(random: &mut Random, shape: Shape) -> Call {
    let make = &mut Maker { random, p: shape.p, n: shape.words };
    let solution: Vec<u32> = (0..shape.words).map(|_| make.uniform()).collect();
    let rank = shape.equalities.min(shape.words / 2);
    let basis: Vec<Term> = (0..rank)
        .map(|i| {
            let even = (i % 3) as u32;
            let row: Term = (0..=make.n).map(|_| make.uniform() << even & make.top()).collect();
            make.with_value(row, &solution, 0)
        })
        .collect();
    let mut constraints: Vec<(u8, Term, Term)> = Vec::new();
    for i in 0..shape.equalities {
        let mut row = basis[i % rank].clone();
        for from in &basis {
            let q = make.uniform();
            row.iter_mut().zip(from).for_each(|(a, b)| *a = a.wrapping_add(q.wrapping_mul(*b)) & make.top());
        }
        constraints.push((EQUAL, row, make.constant(0)));
    }
    for i in 0..shape.others {
        let value = make.uniform().max(1);
        let mut term = make.constant(0);
        for x in make.random.words(shape.words, 3) {
            term[x as usize] = make.number();
        }
        let term = make.with_value(term, &solution, value);
        let kind = [DIFFERENT, AT_MOST, DIFFERENT, BELOW][i % 4];
        let right = match kind {
            DIFFERENT => make.constant(value - 1),
            // Just above the value: at the greatest the constraint would say nothing.
            _ => make.constant(value.saturating_add(1).min(make.top())),
        };
        let kind = if right[shape.words] == value { AT_MOST } else { kind };
        constraints.push((kind, term, right));
    }
    make.random.shuffle(&mut constraints);
    let list = make.random.words(shape.words, shape.listed);
    Call::new(&Draft { p: shape.p, n: shape.words, constraints }, &list)
}

/// The most walks: neighbours differ at width 1, and the list names the chain's free end last.
pub fn chain(words: usize) -> Call {
    let constraints = (0..words - 1)
        .flat_map(|x| {
            let mut left = vec![0; words + 1];
            (left[x], left[x + 1]) = (1, 1);
            // The first word has two constraints, so that only the last one is free at first.
            vec![(DIFFERENT, left, vec![0; words + 1]); if x == 0 { 2 } else { 1 }]
        })
        .collect();
    let list: Vec<u8> = (0..words as u8).collect();
    Call::new(&Draft { p: 1, n: words, constraints }, &list)
}

/// Refused calls: a sheet cut short, a number too large at the very end, and a fate buffer that is too short.
pub fn refused(random: &mut Random) -> [(&'static str, Call); 3] {
    let narrow = Shape { p: 31, ..FULL };
    let mut short = call(random, FULL);
    short.sheet.truncate(7);
    let mut number = call(random, narrow);
    let end = number.sheet.len();
    number.sheet[end - 4] = 0x80;
    let mut fates = call(random, FULL);
    fates.fate_room = 0;
    assert_eq!(fates.sheet.len(), size(16, 64));
    [("refusal 1: 7 bytes", short), ("refusal 7: the last number", number), ("refusal 11: all tests made", fates)]
}
