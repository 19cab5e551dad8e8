//! Trying a word by Layer1 and Layer2, and the walks over a list.

use crate::number::{inverse, kappa, modulus, negative, plus};
use crate::sheet::{constant, is_constant, Constraint, Kind, Sheet, Term};
use crate::tidy::tidy;

/// What became of a listed word, with its byte.
#[derive(Clone, Copy, PartialEq, Eq, Debug)]
pub enum Fate {
    Left = 0,
    Absent = 1,
    Layer1 = 2,
    Layer2 = 3,
}

/// A sheet from which the listed words have been hidden as far as the layers go.
#[derive(Clone, PartialEq, Eq, Debug)]
pub struct Walked {
    pub sheet: Sheet,
    pub fates: Vec<Fate>,
    pub walks: usize,
}

/// Tidies the sheet and walks the list until every word is hidden or a walk hides none.
pub fn hide_words(sheet: &Sheet, list: &[usize]) -> Walked {
    let mut sheet = tidy(sheet);
    let mut fates = vec![Fate::Left; list.len()];
    let mut walks = 0;
    while fates.contains(&Fate::Left) {
        let before = fates.clone();
        for (i, &x) in list.iter().enumerate() {
            if fates[i] == Fate::Left {
                if let Some((fate, without)) = attempt(&sheet, x) {
                    fates[i] = fate;
                    sheet = tidy(&without);
                }
            }
        }
        walks += 1;
        if fates == before {
            break;
        }
    }
    Walked { sheet, fates, walks }
}

/// The equality that Layer1 works with: 2^k × x = u, and where it stands in the sheet.
struct Known {
    at: usize,
    k: u32,
    u: Term,
}

/// Tries word x: its fate and the sheet without it, or nothing where it is left.
fn attempt(sheet: &Sheet, x: usize) -> Option<(Fate, Sheet)> {
    if !sheet.has(x) {
        return Some((Fate::Absent, sheet.clone()));
    }
    let known = least_equality(sheet, x);
    let mut replaced = sheet.clone();
    if let Some(known) = &known {
        replace_in_others(&mut replaced, x, known);
        let elsewhere = replaced.constraints.iter().enumerate().any(|(i, c)| i != known.at && c.has(x));
        if !elsewhere {
            replaced.constraints[known.at] = shadow(&replaced, known);
            return Some((Fate::Layer1, replaced));
        }
    }
    let k0 = known.as_ref().map_or(sheet.width, |known| known.k);
    if surplus(&replaced, x, k0)? < 1 {
        return None;
    }
    if let Some(known) = &known {
        replaced.constraints[known.at] = shadow(&replaced, known);
    }
    replaced.constraints.retain(|c| c.kind == Kind::Equal || !c.has(x));
    Some((Fate::Layer2, replaced))
}

/// Of the equalities that have x the one with least κ, the first of equals, scaled to 2^k × x = u.
fn least_equality(sheet: &Sheet, x: usize) -> Option<Known> {
    let p = sheet.width;
    let with_x = |i: &usize| sheet.constraints[*i].kind == Kind::Equal && sheet.constraints[*i].has(x);
    // min_by_key gives the first of equals.
    let at = (0..sheet.constraints.len()).filter(with_x).min_by_key(|&i| kappa(sheet.constraints[i].left[x]))?;
    let row = &sheet.constraints[at].left;
    let k = kappa(row[x]);
    let by = inverse(row[x] >> k, p);
    let mut u: Term = row.iter().map(|&a| plus(0, negative(by, p), a, p)).collect();
    u[x] = 0;
    Some(Known { at, k, u })
}

/// In every constraint but the known one, in each side separately, 2^k × c × x becomes c × u where 2^k divides.
fn replace_in_others(sheet: &mut Sheet, x: usize, known: &Known) {
    let p = sheet.width;
    for (i, constraint) in sheet.constraints.iter_mut().enumerate() {
        if i == known.at {
            continue;
        }
        for side in [&mut constraint.left, &mut constraint.right] {
            if side[x].is_multiple_of(modulus(known.k)) {
                let c = side[x] / modulus(known.k);
                side[x] = 0;
                for (a, &b) in side.iter_mut().zip(&known.u) {
                    *a = plus(*a, c, b, p);
                }
            }
        }
    }
}

/// What the known equality says of the other words: 2^(p − k) × u = 0.
fn shadow(sheet: &Sheet, known: &Known) -> Constraint {
    let p = sheet.width;
    let by = modulus(p - known.k) % modulus(p);
    Constraint { kind: Kind::Equal, left: known.u.iter().map(|&a| plus(0, by, a, p)).collect(), right: sheet.zero() }
}

/// The inequalities of one term: the greatest lower and the least upper bound, and whether all bounds are constant.
struct Group {
    term: Term,
    low: i64,
    high: i64,
    constant: bool,
}

/// Layer2's surplus, or nothing where the inequalities are not as they must be.
fn surplus(sheet: &Sheet, x: usize, k0: u32) -> Option<i64> {
    let mut groups = groups(sheet, x)?;
    groups.sort_by_key(|g| std::cmp::Reverse(kappa(g.term[x])));
    let mut product: i64 = 1;
    let mut power = k0;
    for group in &groups {
        let k = kappa(group.term[x]);
        let delta = if group.constant { (group.high - group.low + 1).max(0) } else { 0 };
        product *= delta >> (sheet.width - power + k);
        power = k;
    }
    let spoilt: i64 =
        sheet.constraints.iter().filter(|c| c.kind == Kind::Different && c.has(x)).map(|c| 1 << kappa(c.left[x])).sum();
    Some((product << power) - spoilt)
}

/// The inequalities with x, grouped by the term that has it. Nothing where one has x on both sides, or where two groups
/// have the same κ.
fn groups(sheet: &Sheet, x: usize) -> Option<Vec<Group>> {
    let mut groups: Vec<Group> = Vec::new();
    for c in sheet.constraints.iter().filter(|c| c.kind.is_inequality() && c.has(x)) {
        if c.left[x] != 0 && c.right[x] != 0 {
            return None;
        }
        let upper = c.left[x] != 0;
        let (term, bound) = if upper { (&c.left, &c.right) } else { (&c.right, &c.left) };
        let at = groups.iter().position(|g| g.term == *term).unwrap_or_else(|| {
            let whole = modulus(sheet.width) as i64 - 1;
            groups.push(Group { term: term.clone(), low: 0, high: whole, constant: true });
            groups.len() - 1
        });
        let group = &mut groups[at];
        let by = (c.kind == Kind::Below) as i64;
        if !is_constant(bound) {
            group.constant = false;
        } else if upper {
            group.high = group.high.min(constant(bound) as i64 - by);
        } else {
            group.low = group.low.max(constant(bound) as i64 + by);
        }
    }
    let mut powers: Vec<u32> = groups.iter().map(|g| kappa(g.term[x])).collect();
    powers.sort();
    let apart = powers.windows(2).all(|pair| pair[0] != pair[1]);
    apart.then_some(groups)
}
