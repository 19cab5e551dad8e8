//! The tidy form, by eliminating one column of the whole matrix after the other.

use crate::number::{inverse, kappa, modulus, negative, plus};
use crate::sheet::{constant, is_constant, Constraint, Kind, Sheet, Term};

/// Adds q times `from` to `to`.
fn add(to: &mut Term, q: u64, from: &Term, p: u32) {
    for (a, &b) in to.iter_mut().zip(from) {
        *a = plus(*a, q, b, p);
    }
}

fn scaled(q: u64, row: &Term, p: u32) -> Term {
    row.iter().map(|&a| plus(0, q, a, p)).collect()
}

/// The reduced Howell form of rows that each say term = 0; nothing where the rows have no solution.
pub fn howell(rows: &[Term], words: usize, p: u32) -> Option<Vec<Term>> {
    let mut rest = rows.to_vec();
    let mut leading: Vec<(usize, Term)> = Vec::new();
    for x in 0..words {
        if let Some(row) = clear_column(&mut rest, x, p) {
            leading.push((x, row));
        }
    }
    // What is left lacks words. Any solution would make each of these constants 0.
    if rest.iter().any(|row| constant(row) != 0) {
        return None;
    }
    lower(&mut leading, p);
    Some(leading.into_iter().map(|(_, row)| row).collect())
}

/// Takes the row with the least κ in column x out of the matrix, makes its coefficient there a power of two, and clears
/// the column in all the others. What 2^(p − k) times the row says of the later words stays behind as a new row.
fn clear_column(rest: &mut Vec<Term>, x: usize, p: u32) -> Option<Term> {
    let at = (0..rest.len()).filter(|&i| rest[i][x] != 0).min_by_key(|&i| kappa(rest[i][x]))?;
    let row = rest.swap_remove(at);
    let k = kappa(row[x]);
    let row = scaled(inverse(row[x] >> k, p), &row, p);
    for other in rest.iter_mut() {
        let q = other[x] >> k;
        add(other, negative(q, p), &row, p);
    }
    rest.push(scaled(modulus(p - k) % modulus(p), &row, p));
    rest.retain(|row| row.iter().any(|&a| a != 0));
    Some(row)
}

/// In every earlier row the coefficient of a leading word becomes less than the power that leads there.
fn lower(leading: &mut [(usize, Term)], p: u32) {
    for i in (0..leading.len()).rev() {
        let (earlier, later) = leading.split_at_mut(i + 1);
        let row = &mut earlier[i].1;
        for (y, below) in later.iter() {
            let q = row[*y] / below[*y];
            add(row, negative(q, p), below, p);
        }
    }
}

/// Equalities and disequalities with their right side zero; inequalities as they are.
fn one_sided(constraint: &Constraint, p: u32) -> Constraint {
    if constraint.kind.is_inequality() {
        return constraint.clone();
    }
    let mut left = constraint.left.clone();
    add(&mut left, negative(1, p), &constraint.right, p);
    Constraint { kind: constraint.kind, right: vec![0; left.len()], left }
}

/// Whether a constraint with no word in it is true; nothing for one that has a word.
fn decided(constraint: &Constraint) -> Option<bool> {
    let wordless = is_constant(&constraint.left) && is_constant(&constraint.right);
    wordless.then(|| constraint.kind.compares(constant(&constraint.left), constant(&constraint.right)))
}

/// The tidy form of a sheet.
pub fn tidy(sheet: &Sheet) -> Sheet {
    let constraints: Vec<Constraint> = sheet.constraints.iter().map(|c| one_sided(c, sheet.width)).collect();
    if constraints.iter().any(|c| decided(c) == Some(false)) {
        return sheet.refuted();
    }
    let undecided = constraints.into_iter().filter(|c| decided(c).is_none());
    let (equalities, others): (Vec<_>, Vec<_>) = undecided.partition(|c| c.kind == Kind::Equal);
    let rows: Vec<Term> = equalities.into_iter().map(|c| c.left).collect();
    let Some(rows) = howell(&rows, sheet.words, sheet.width) else {
        return sheet.refuted();
    };
    let equalities = rows.into_iter().map(|row| Constraint { kind: Kind::Equal, left: row, right: sheet.zero() });
    Sheet { constraints: equalities.chain(others).collect(), ..*sheet }
}
