//! Tidying: the rows go one after the other into a basis that has a place for each word.

use crate::word::{kappa, less, power, unit, wordless};
use crate::{Row, Rows, Sides, CONSTANT};

type Places = [Row; 16];

/// The turn of word x: of its place and the pending row, the one that 2 divides less often stays and clears the other,
/// which goes on to the later words.
fn turn(place: &mut Row, x: usize, pending: Row, p: u32) -> Row {
    let c = pending[x];
    if c == 0 {
        return pending;
    }
    let k = kappa(place[x], p);
    let j = c.trailing_zeros();
    if k <= j {
        return less(&pending, c >> k, place, p);
    }
    let old = std::mem::replace(place, unit(&pending, x, p));
    less(&old, power(k - j), place, p)
}

/// Puts every row into the basis. The answer is whether they have a solution: whether no constant is left over.
fn put_all(rows: &[Row], places: &mut Places, p: u32) -> bool {
    let mut solvable = true;
    for row in rows {
        let mut pending = *row;
        for (x, place) in places.iter_mut().enumerate() {
            pending = turn(place, x, pending, p);
        }
        solvable &= pending[CONSTANT] == 0;
    }
    solvable
}

/// In every row, the coefficient of a later row's leading word becomes less than the power that leads there.
fn reduce(places: &mut Places, p: u32) {
    for x in (0..16).rev() {
        let (earlier, later) = places.split_at_mut(x + 1);
        let row = &mut earlier[x];
        for (y, below) in (x + 1..).zip(later.iter()) {
            let c = row[y];
            let k = kappa(below[y], p);
            if c != 0 && k < 32 && c >> k != 0 {
                *row = less(row, c >> k, below, p);
            }
        }
    }
}

/// Writes the rows of the basis to the front of the block, and tells how many there are.
fn fill(places: &Places, rows: &mut Rows) -> usize {
    let mut n = 0;
    for (x, place) in places.iter().enumerate() {
        if place[x] != 0 {
            rows[n] = *place;
            n += 1;
        }
    }
    n
}

/// The sheet 1 = 0.
fn refute(rows: &mut Rows) -> usize {
    rows[0] = [0; 17];
    rows[0][CONSTANT] = 1;
    1
}

/// Tidies equalities alone, and tells how many there are then.
pub fn equalities(rows: &mut Rows, eqs: usize, p: u32) -> usize {
    let mut places = [[0; 17]; 16];
    if !put_all(&rows[..eqs], &mut places, p) {
        return refute(rows);
    }
    reduce(&mut places, p);
    fill(&places, rows)
}

fn decided(sides: &[Row]) -> bool {
    sides.iter().all(wordless)
}

fn refuted(kind: u8, sides: &[Row]) -> bool {
    let (left, right) = (sides[0][CONSTANT], sides[1][CONSTANT]);
    decided(sides)
        && !match kind {
            1 => left != right,
            2 => left <= right,
            _ => left < right,
        }
}

/// Keeps the constraints whose sides pass the test, in their order, and tells how many there are then.
pub fn keep(kinds: &mut [u8; 32], sides: &mut Sides, others: usize, test: impl Fn(&[Row]) -> bool) -> usize {
    let mut n = 0;
    for i in 0..others {
        if test(&sides[2 * i..2 * i + 2]) {
            kinds[n] = kinds[i];
            sides.copy_within(2 * i..2 * i + 2, 2 * n);
            n += 1;
        }
    }
    n
}

/// Tidies a whole sheet, and tells how many equalities and others it has then.
pub fn tidy(
    rows: &mut Rows,
    eqs: usize,
    kinds: &mut [u8; 32],
    sides: &mut Sides,
    others: usize,
    p: u32,
) -> (usize, usize) {
    let mut places = [[0; 17]; 16];
    let solvable = put_all(&rows[..eqs], &mut places, p);
    if !solvable || kinds[..others].iter().zip(sides.chunks(2)).any(|(&kind, sides)| refuted(kind, sides)) {
        return (refute(rows), 0);
    }
    reduce(&mut places, p);
    (fill(&places, rows), keep(kinds, sides, others, |sides| !decided(sides)))
}
