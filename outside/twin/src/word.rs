//! Numbers modulo 2^p and rows of them.

use crate::{Row, CONSTANT};

/// The ones that a number modulo 2^p may have, p from 1 to 32.
fn mask(p: u32) -> u32 {
    u32::MAX >> (32 - p)
}

/// How many times 2 divides x, no further than p: of 0 it is p.
pub fn kappa(x: u32, p: u32) -> u32 {
    x.trailing_zeros().min(p)
}

/// The power 2^k as a word: 0 where k is 32.
pub fn power(k: u32) -> u32 {
    1u32.checked_shl(k).unwrap_or(0)
}

/// The inverse of an odd number modulo 2^32. The number is its own inverse modulo 8, and each turn doubles the bits
/// that are right: 3, 6, 12, 24, 48.
fn inverse(b: u32) -> u32 {
    let mut y = b;
    for _ in 0..4 {
        y = y.wrapping_mul(2u32.wrapping_sub(b.wrapping_mul(y)));
    }
    y
}

/// r less q times s.
pub fn less(r: &Row, q: u32, s: &Row, p: u32) -> Row {
    std::array::from_fn(|i| r[i].wrapping_sub(q.wrapping_mul(s[i])) & mask(p))
}

/// q times r.
pub fn scale(q: u32, r: &Row, p: u32) -> Row {
    r.map(|a| q.wrapping_mul(a) & mask(p))
}

/// The multiple of r in which the coefficient of x, which is not 0, is a power of two.
pub fn unit(r: &Row, x: usize, p: u32) -> Row {
    scale(inverse(r[x] >> r[x].trailing_zeros()), r, p)
}

/// Whether the row has no word in it.
pub fn wordless(r: &Row) -> bool {
    r[..CONSTANT].iter().all(|&c| c == 0)
}
