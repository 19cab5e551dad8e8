//! Trying a word, walking, and the call.

use crate::word::{kappa, less, power, scale, unit, wordless};
use crate::{bytes, tidy, Answer, Row, Rows, Sides, CONSTANT};

const LEFT: u8 = 0;
const ABSENT: u8 = 1;
const LAYER1: u8 = 2;
const LAYER2: u8 = 3;

/// The working sheet: its blocks, and how much of them counts.
struct Work {
    p: u32,
    eqs: usize,
    rows: Rows,
    others: usize,
    kinds: [u8; 32],
    sides: Sides,
}

/// The inequalities whose term has x with one κ: the greatest lower bound, the least upper one plus 1, and where the
/// term stands.
#[derive(Clone, Copy)]
struct Group {
    low: u64,
    past: u64,
    term: Option<usize>,
}

impl Work {
    fn tidy(&mut self) {
        (self.eqs, self.others) =
            tidy::tidy(&mut self.rows, self.eqs, &mut self.kinds, &mut self.sides, self.others, self.p);
    }

    fn sides_have(&self, x: usize) -> bool {
        self.sides[..2 * self.others].iter().any(|side| side[x] != 0)
    }

    /// The equality with the least κ for x, the first of equals, and that κ; nothing where no equality has x.
    fn chosen(&self, x: usize) -> Option<(usize, u32)> {
        let kappas = self.rows[..self.eqs].iter().map(|row| kappa(row[x], self.p));
        kappas.enumerate().min_by_key(|&(_, k)| k).filter(|&(_, k)| k < self.p)
    }

    /// Tries word x. Where it is left, the sheet is as before.
    fn attempt(&mut self, x: usize) -> u8 {
        match self.chosen(x) {
            Some((at, k)) => self.try_bound(x, at, k),
            None if self.sides_have(x) => self.try_free(x),
            None => ABSENT,
        }
    }

    fn try_free(&mut self, x: usize) -> u8 {
        if !spare(&self.kinds[..self.others], &self.sides, x, self.p, self.p) {
            return LEFT;
        }
        self.drop_with(x);
        LAYER2
    }

    fn try_bound(&mut self, x: usize, at: usize, k: u32) -> u8 {
        let p = self.p;
        let chosen = unit(&self.rows[at], x, p);
        let mut next = [[0; 17]; 64];
        let mut has = false;
        for (to, from) in next.iter_mut().zip(&self.sides[..2 * self.others]) {
            *to = replaced(from, x, k, &chosen, p);
            has |= to[x] != 0;
        }
        if has && !spare(&self.kinds[..self.others], &next, x, k, p) {
            return LEFT;
        }
        self.sides[..2 * self.others].copy_from_slice(&next[..2 * self.others]);
        if has {
            self.drop_with(x);
        }
        for row in &mut self.rows[..self.eqs] {
            *row = replaced(row, x, k, &chosen, p);
        }
        self.rows[at] = scale(power(p - k), &chosen, p);
        if has {
            LAYER2
        } else {
            LAYER1
        }
    }

    fn drop_with(&mut self, x: usize) {
        let lacks = |sides: &[Row]| sides.iter().all(|side| side[x] == 0);
        self.others = tidy::keep(&mut self.kinds, &mut self.sides, self.others, lacks);
    }

    /// Walks the list until every word is hidden or a walk hides none, and tells the number of walks.
    fn walks(&mut self, list: &[u8], fates: &mut [u8; 16]) -> usize {
        let mut walks = 0;
        let mut more = !list.is_empty();
        while more {
            let (mut hid, mut left) = (false, false);
            for (&x, fate) in list.iter().zip(fates.iter_mut()).filter(|(_, fate)| **fate == LEFT) {
                *fate = self.attempt(x as usize);
                if *fate == LEFT {
                    left = true;
                } else {
                    self.tidy();
                    hid = true;
                }
            }
            walks += 1;
            more = hid && left;
        }
        walks
    }
}

/// The row with x taken out by 2^k × x = u, if 2^k divides its coefficient; `chosen` is 2^k × x − u.
fn replaced(row: &Row, x: usize, k: u32, chosen: &Row, p: u32) -> Row {
    let c = row[x];
    if c != 0 && k <= c.trailing_zeros() {
        less(row, c >> k, chosen, p)
    } else {
        *row
    }
}

/// Layer2's question: whether the surplus is 1 or more.
fn spare(kinds: &[u8], sides: &Sides, x: usize, k0: u32, p: u32) -> bool {
    let mut groups = [Group { low: 0, past: 1 << p, term: None }; 32];
    for (i, &kind) in kinds.iter().enumerate().rev() {
        if kind > 1 && !take_bound(&mut groups, sides, i, kind, x) {
            return false;
        }
    }
    1 <= room(&groups, k0, p) as i64 - cost(kinds, sides, x) as i64
}

/// Takes an inequality into its group. False where the groups are not as they must be, or a bound is not constant.
fn take_bound(groups: &mut [Group; 32], sides: &Sides, i: usize, kind: u8, x: usize) -> bool {
    let (upper, s, t) = match (sides[2 * i][x], sides[2 * i + 1][x]) {
        (0, 0) => return true,
        (0, _) => (false, 2 * i + 1, 2 * i),
        (_, 0) => (true, 2 * i, 2 * i + 1),
        _ => return false,
    };
    let bound = &sides[t];
    if !wordless(bound) {
        return false;
    }
    let group = &mut groups[sides[s][x].trailing_zeros() as usize];
    match group.term {
        None => group.term = Some(s),
        Some(old) if sides[s] != sides[old] => return false,
        Some(_) => {}
    }
    let c = bound[CONSTANT] as u64;
    let strict = kind > 2;
    if upper {
        group.past = group.past.min(if strict { c } else { c + 1 });
    } else {
        group.low = group.low.max(if strict { c + 1 } else { c });
    }
    true
}

/// The first part of the surplus: how many values of x the groups leave at least.
fn room(groups: &[Group; 32], k0: u32, p: u32) -> u64 {
    let (mut product, mut k) = (1, k0);
    for (j, group) in (0..32).zip(groups).rev().filter(|(_, group)| group.term.is_some()) {
        product *= group.past.saturating_sub(group.low) >> (p - k + j);
        k = j;
    }
    product << k
}

/// The second part: how many values the disequalities take away at most.
fn cost(kinds: &[u8], sides: &Sides, x: usize) -> u64 {
    kinds
        .iter()
        .zip(sides.chunks_exact(2))
        .filter(|(&kind, pair)| kind == 1 && pair[0][x] != 0)
        .map(|(_, pair)| 1 << pair[0][x].trailing_zeros())
        .sum()
}

/// The whole call, from bytes to bytes.
pub fn hide(sheet: &[u8], list: &[u8], out: &mut [u8], fates: &mut [u8]) -> Answer {
    let refused = bytes::refusal(sheet, list, out.len(), fates.len());
    if refused != 0 {
        return Answer { refused, length: 0, walks: 0 };
    }
    let (p, n) = (sheet[5] as u32, sheet[6] as usize);
    let mut work = Work { p, eqs: 0, rows: [[0; 17]; 32], others: 0, kinds: [0; 32], sides: [[0; 17]; 64] };
    (work.eqs, work.others) = bytes::read(sheet, p, n, &mut work.rows, &mut work.kinds, &mut work.sides);
    work.tidy();
    let mut found = [LEFT; 16];
    let walks = work.walks(list, &mut found);
    let (rows, kinds) = (&work.rows[..work.eqs], &work.kinds[..work.others]);
    let length = bytes::write(out, p, n, rows, kinds, &work.sides);
    fates[..list.len()].copy_from_slice(&found[..list.len()]);
    Answer { refused: 0, length, walks }
}
