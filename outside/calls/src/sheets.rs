//! Sound sheets, biased to where the rules bend: powers of two, repeated terms, groups of equal and of falling κ,
//! constants at both ends, decided and contradictory constraints, and words that only later walks can hide.

use crate::random::Random;

pub const EQUAL: u8 = 0;
pub const DIFFERENT: u8 = 1;
pub const AT_MOST: u8 = 2;
pub const BELOW: u8 = 3;

/// The coefficients in order of the words, then the constant.
pub type Term = Vec<u32>;

/// A sheet to be written as bytes. It is public to its fields, so that it can be damaged.
#[derive(Clone, PartialEq, Eq, Debug)]
pub struct Draft {
    pub p: u32,
    pub n: usize,
    pub constraints: Vec<(u8, Term, Term)>,
}

impl Draft {
    pub fn bytes(&self) -> Vec<u8> {
        let mut body = vec![1, self.p as u8, self.n as u8, self.constraints.len() as u8];
        for (kind, left, right) in &self.constraints {
            body.push(*kind);
            for v in left.iter().chain(right) {
                body.extend(v.to_be_bytes());
            }
        }
        let mut bytes = (body.len() as u32).to_be_bytes().to_vec();
        bytes.extend(body);
        bytes
    }

    fn equalities(&self) -> usize {
        self.constraints.iter().filter(|c| c.0 == EQUAL).count()
    }
}

/// Numbers, terms and constants of one width and number of words.
pub struct Maker<'a> {
    pub random: &'a mut Random,
    pub p: u32,
    pub n: usize,
}

impl Maker<'_> {
    /// 2^p − 1, the greatest number.
    pub fn top(&self) -> u32 {
        u32::MAX >> (32 - self.p)
    }

    pub fn uniform(&mut self) -> u32 {
        self.random.bits() as u32 & self.top()
    }

    /// An odd number times 2^k.
    pub fn with_kappa(&mut self, k: u32) -> u32 {
        ((self.random.bits() as u32 | 1) << k) & self.top()
    }

    pub fn power(&mut self) -> u32 {
        1 << self.random.below(self.p as u64)
    }

    /// A number, often a special one.
    pub fn number(&mut self) -> u32 {
        match self.random.below(7) {
            0 => 0,
            1 => 1,
            2 => self.top(),
            3 => self.power(),
            4 => self.power().wrapping_neg() & self.top(),
            5 => (self.random.below(7) as u32 + 1) << self.random.below(self.p as u64) & self.top(),
            _ => self.uniform(),
        }
    }

    /// A term whose words each occur in so many of a hundred.
    pub fn term(&mut self, percent: u64) -> Term {
        let mut term: Term = (0..self.n).map(|_| if self.random.chance(percent) { self.number() } else { 0 }).collect();
        term.push(if self.random.chance(60) { self.number() } else { 0 });
        term
    }

    /// The term that is one number.
    pub fn constant(&mut self, value: u32) -> Term {
        let mut term = vec![0; self.n];
        term.push(value);
        term
    }

    /// A constant, often at an end.
    pub fn some_constant(&mut self) -> Term {
        let top = self.top();
        let ends = [0, top, 1, top - top.min(1), top / 2, self.uniform(), self.uniform()];
        let value = *self.random.pick(&ends);
        self.constant(value)
    }

    /// A term in which x has κ = k.
    pub fn term_with(&mut self, x: usize, k: u32, percent: u64) -> Term {
        let mut term = self.term(percent);
        term[x] = self.with_kappa(k);
        term
    }

    /// A term that lacks x.
    pub fn term_without(&mut self, x: usize, percent: u64) -> Term {
        let mut term = self.term(percent);
        term[x] = 0;
        term
    }

    /// The term with its constant moved so that it has the value at the assignment.
    pub fn with_value(&mut self, mut term: Term, assignment: &[u32], value: u32) -> Term {
        let sum = term.iter().zip(assignment).fold(0u32, |sum, (&c, &v)| sum.wrapping_add(c.wrapping_mul(v)));
        term[self.n] = value.wrapping_sub(sum) & self.top();
        term
    }

    fn some_list(&mut self) -> Vec<u8> {
        let n = self.n;
        let lengths = [0, 1, n, self.random.between(0, n), self.random.between(0, n)];
        let length = *self.random.pick(&lengths);
        self.random.words(n, length)
    }
}

/// A sound sheet and a list for it, of any of the kinds below.
pub fn any(random: &mut Random) -> (Draft, Vec<u8>) {
    loop {
        let (mut draft, list) = match random.below(16) {
            0..=5 => mixed(random),
            6..=9 => layered(random),
            10..=12 => chained(random),
            13 => laden(random),
            14 => contradictory(random),
            _ => decided(random),
        };
        // Later constraints are the ones to go where there are too many.
        draft.constraints.truncate(64);
        let equalities = draft.equalities();
        if equalities <= 32 && draft.constraints.len() - equalities <= 32 {
            return (draft, list);
        }
    }
}

/// Constraints of all kinds over a small pool of terms, so that terms come back and cancel.
pub fn mixed(random: &mut Random) -> (Draft, Vec<u8>) {
    let (p, n) = match random.below(8) {
        0..=2 => (*random.pick(&[1, 2, 3, 3, 4]), *random.pick(&[1, 2, 3, 4])),
        3..=4 => (*random.pick(&[5, 8, 13, 16, 24, 31]), *random.pick(&[1, 2, 3, 4, 6])),
        5..=6 => (*random.pick(&[31, 32, 32]), *random.pick(&[1, 2, 3, 5])),
        _ => (*random.pick(&[1, 2, 3, 8, 32]), *random.pick(&[7, 12, 15, 16])),
    };
    let m = random.between(0, if n > 6 { 10 } else { 6 });
    mixed_of(&mut Maker { random, p, n }, m)
}

fn mixed_of(make: &mut Maker, m: usize) -> (Draft, Vec<u8>) {
    let percent = if make.n <= 4 { *make.random.pick(&[30, 50, 80]) } else { *make.random.pick(&[15, 30, 60]) };
    let mut pool: Vec<Term> = (0..make.random.between(1, 4)).map(|_| make.term(percent)).collect();
    let x = make.random.index(make.n);
    for _ in 0..make.random.below(4) {
        let k = make.random.below(make.p as u64) as u32;
        pool.push(make.term_with(x, k, percent / 2));
    }
    let weights: [u64; 4] = *make.random.pick(&[
        [3, 2, 2, 1],
        [2, 1, 0, 0],
        [1, 2, 2, 2],
        [0, 3, 0, 0],
        [0, 0, 2, 2],
        [0, 1, 2, 2],
        [1, 0, 3, 1],
        [1, 1, 1, 1],
        [6, 1, 1, 1],
    ]);
    let mut constraints: Vec<(u8, Term, Term)> = Vec::new();
    for _ in 0..m {
        let kind = weighted(make.random, &weights);
        let constraint = if kind <= DIFFERENT {
            let left = pooled(make, &pool, percent);
            let right = match make.random.below(4) {
                0 => make.constant(0),
                1 => make.some_constant(),
                2 if make.random.chance(30) => left.clone(),
                _ => pooled(make, &pool, percent),
            };
            (kind, left, right)
        } else {
            inequality(make, kind, &pool, percent)
        };
        constraints.push(constraint);
        if make.random.chance(8) {
            let again = make.random.pick(&constraints).clone();
            constraints.push(again);
        }
    }
    make.random.shuffle(&mut constraints);
    let list = make.some_list();
    (Draft { p: make.p, n: make.n, constraints }, list)
}

fn weighted(random: &mut Random, weights: &[u64; 4]) -> u8 {
    let mut at = random.below(weights.iter().sum());
    for (kind, &weight) in weights.iter().enumerate() {
        if at < weight {
            return kind as u8;
        }
        at -= weight;
    }
    unreachable!("the number drawn is below the sum of the weights")
}

fn pooled(make: &mut Maker, pool: &[Term], percent: u64) -> Term {
    match make.random.below(20) {
        0..=10 => make.random.pick(pool).clone(),
        11..=14 => make.some_constant(),
        _ => make.term(percent),
    }
}

/// An inequality, most often a loose one: those are the ones that let Layer2 work.
fn inequality(make: &mut Maker, kind: u8, pool: &[Term], percent: u64) -> (u8, Term, Term) {
    let term = pooled(make, pool, percent);
    let flip = make.random.chance(50);
    if make.random.chance(60) {
        let small = make.uniform() / *make.random.pick(&[2, 4, 8, 16]);
        let value = if flip { make.top() - small } else { small };
        let bound = make.constant(value);
        return if flip { (kind, term, bound) } else { (kind, bound, term) };
    }
    let other = match make.random.below(10) {
        0 => term.clone(),
        1..=3 => pooled(make, pool, percent),
        _ => make.some_constant(),
    };
    if flip {
        (kind, term, other)
    } else {
        (kind, other, term)
    }
}

/// Made for Layer2: groups in one word with falling κ, bounds near the least δ that counts, disequalities of known κ.
pub fn layered(random: &mut Random) -> (Draft, Vec<u8>) {
    let p = *random.pick(&[2, 3, 4, 5, 8, 16, 31, 32]);
    let n = *random.pick(&[2, 3, 4]);
    let make = &mut Maker { random, p, n };
    let x = make.random.index(n);
    let mut constraints = Vec::new();
    let mut power = p;
    if make.random.chance(50) {
        power = make.random.below(p as u64) as u32;
        constraints.push((EQUAL, make.term_with(x, power, 40), make.constant(0)));
    }
    let top_power = power;
    for _ in 0..*make.random.pick(&[0, 1, 1, 2, 3]) {
        if power == 0 {
            break;
        }
        let k = make.random.below(power as u64) as u32;
        bounds(make, x, k, power, &mut constraints);
        power = k;
    }
    for _ in 0..*make.random.pick(&[0, 0, 1, 2, 3]) {
        let k = match make.random.below(3) {
            0 => 0,
            1 => make.random.below(p as u64),
            _ => make.random.below(top_power.max(1) as u64),
        };
        let left = make.term_with(x, k as u32, 40);
        let right = match make.random.below(3) {
            0 => make.constant(0),
            1 => make.some_constant(),
            _ => make.term(30),
        };
        constraints.push((DIFFERENT, left, right));
        if make.random.chance(20) {
            constraints.push(constraints[constraints.len() - 1].clone());
        }
    }
    if make.random.chance(30) {
        constraints.push((make.random.below(4) as u8, make.term_without(x, 40), make.some_constant()));
    }
    make.random.shuffle(&mut constraints);
    let list = if make.random.chance(60) { vec![x as u8] } else { make.some_list() };
    (Draft { p, n, constraints }, list)
}

/// One group: a term in which x has κ = k, bounded from both ends so that δ is a few times 2^(p − power + k), more or
/// less one.
fn bounds(make: &mut Maker, x: usize, k: u32, power: u32, constraints: &mut Vec<(u8, Term, Term)>) {
    let term = make.term_with(x, k, 40);
    let whole = 1u64 << make.p;
    let step = 1u64 << (make.p - power + k);
    let times = 1 + make.random.below((whole / step).min(6));
    let delta = (step * times + make.random.below(3)).saturating_sub(1).min(whole);
    let low = match make.random.below(3) {
        0 => 0,
        1 => whole - delta,
        _ => make.random.below(whole - delta + 1),
    };
    let past = low + delta;
    let strict = make.random.chance(40);
    match (low, strict) {
        (0, _) => {}
        (_, true) => constraints.push((BELOW, make.constant((low - 1) as u32), term.clone())),
        (_, false) => constraints.push((AT_MOST, make.constant(low.min(whole - 1) as u32), term.clone())),
    }
    if past < whole && make.random.chance(50) {
        constraints.push((BELOW, term.clone(), make.constant(past as u32)));
    } else if past > 0 && (past < whole || make.random.chance(30)) {
        constraints.push((AT_MOST, term.clone(), make.constant((past - 1) as u32)));
    }
    if past < whole && make.random.chance(30) {
        // A looser bound of the same term, which must not count.
        let looser = past + make.random.below(whole - past);
        constraints.push((AT_MOST, term.clone(), make.constant(looser as u32)));
    }
    match make.random.below(24) {
        0 | 1 => constraints.push((AT_MOST, term.clone(), make.term_without(x, 40))),
        2 => constraints.push((BELOW, term.clone(), make.constant(0))),
        3 => constraints.push((BELOW, make.constant(make.top()), term.clone())),
        4 => constraints.push((AT_MOST, make.term_with(x, k, 40), make.constant(make.top()))),
        5 => constraints.push((AT_MOST, term.clone(), term.clone())),
        _ => {}
    }
}

/// Disequalities between neighbours: a word becomes free only once others are hidden, so there are several walks.
pub fn chained(random: &mut Random) -> (Draft, Vec<u8>) {
    let p = *random.pick(&[1, 1, 1, 2, 2, 3, 8]);
    let n = *random.pick(&[3, 4, 5, 6, 6, 9, 16]);
    let make = &mut Maker { random, p, n };
    let order = make.random.words(n, n);
    let mut constraints = Vec::new();
    for pair in order.windows(2) {
        let (a, b) = (pair[0] as usize, pair[1] as usize);
        for _ in 0..if p == 1 { 1 } else { make.random.between(1, 2) } {
            let mut left = make.constant(0);
            left[a] = if make.random.chance(50) { 1 } else { make.top() };
            let mut right = make.some_constant();
            right[b] = if make.random.chance(50) { 1 } else { make.power() };
            let kind = if p > 1 && make.random.chance(15) { make.random.below(4) as u8 } else { DIFFERENT };
            constraints.push((kind, left, right));
        }
    }
    if make.random.chance(20) {
        constraints.push((make.random.below(4) as u8, make.term(30), make.some_constant()));
    }
    make.random.shuffle(&mut constraints);
    let count = make.random.between(2, n);
    // Walking the chain from the far end makes the most walks.
    let mut list = make.random.words(n, count);
    if make.random.chance(40) {
        list = order.iter().rev().copied().filter(|x| list.contains(x)).collect();
    }
    (Draft { p, n, constraints }, list)
}

/// Up to 32 equalities and 32 others, nearly always with a solution.
pub fn laden(random: &mut Random) -> (Draft, Vec<u8>) {
    let p = *random.pick(&[1, 2, 3, 8, 31, 32]);
    let n = *random.pick(&[2, 4, 9, 16, 16]);
    let (equalities, others) = (*random.pick(&[32, 32, 20, 4]), *random.pick(&[32, 32, 10]));
    let make = &mut Maker { random, p, n };
    laden_of(make, equalities, others)
}

fn laden_of(make: &mut Maker, equalities: usize, others: usize) -> (Draft, Vec<u8>) {
    let solution: Vec<u32> = (0..make.n).map(|_| make.uniform()).collect();
    // A common power of two keeps the equalities from fixing every word.
    let common = if make.random.chance(50) { make.random.below(make.p as u64) as u32 } else { 0 };
    let mut constraints = Vec::new();
    for _ in 0..equalities {
        let doubled: Term = make.term(50).iter().map(|&v| v << common & make.top()).collect();
        constraints.push((EQUAL, make.with_value(doubled, &solution, 0), make.constant(0)));
    }
    for _ in 0..others {
        let value = make.uniform();
        let term = make.term(40);
        let term = make.with_value(term, &solution, value);
        let kind = 1 + make.random.below(3) as u8;
        let bound = match kind {
            DIFFERENT => value.wrapping_add(1) & make.top(),
            _ => value + make.random.below((make.top() - value) as u64 + 1) as u32,
        };
        constraints.push((kind, term, make.constant(bound)));
    }
    make.random.shuffle(&mut constraints);
    let count = make.random.between(0, make.n);
    let list = make.random.words(make.n, count);
    (Draft { p: make.p, n: make.n, constraints }, list)
}

/// Equalities with no solution: a sum of multiples of the others, its constant moved.
pub fn contradictory(random: &mut Random) -> (Draft, Vec<u8>) {
    let p = *random.pick(&[1, 2, 3, 8, 16, 31, 32]);
    let n = *random.pick(&[1, 2, 3, 5, 16]);
    let make = &mut Maker { random, p, n };
    let equalities = make.random.between(1, 6);
    let (mut draft, list) = laden_of(make, equalities, 3);
    let mut sum = make.constant(0);
    for (kind, left, _) in &draft.constraints {
        let q = make.number();
        if *kind == EQUAL {
            sum.iter_mut().zip(left).for_each(|(a, b)| *a = a.wrapping_add(q.wrapping_mul(*b)) & make.top());
        }
    }
    // Even a constant that is a high power of two, which a careless division would lose.
    sum[n] = sum[n].wrapping_add(make.power()) & make.top();
    let zero = make.constant(0);
    draft.constraints.push((EQUAL, sum, zero));
    make.random.shuffle(&mut draft.constraints);
    (draft, list)
}

/// Constraints without words among the others, most of them true.
pub fn decided(random: &mut Random) -> (Draft, Vec<u8>) {
    let (mut draft, list) = mixed(random);
    let make = &mut Maker { random, p: draft.p, n: draft.n };
    for _ in 0..make.random.between(1, 3) {
        let (a, b) = (make.number(), make.number());
        let constraint = match make.random.below(8) {
            // Whichever it is, true or false.
            0 => (make.random.below(4) as u8, make.constant(a), make.constant(b)),
            1..=2 => (EQUAL, make.constant(a), make.constant(a)),
            3 => (DIFFERENT, make.constant(a), make.constant(a ^ 1)),
            4 => (BELOW, make.constant(a & !1), make.constant(a | 1)),
            5 => {
                // The words cancel: 0 = 0, or a constant that is not 0.
                let term = make.term(50);
                (make.random.below(2) as u8, term.clone(), term)
            }
            _ => (AT_MOST, make.constant(a.min(b)), make.constant(a.max(b))),
        };
        draft.constraints.push(constraint);
    }
    make.random.shuffle(&mut draft.constraints);
    (draft, list)
}
