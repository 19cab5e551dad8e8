//! Numbers modulo 2^p, held in 64 bits so that a product of two of them is whole.

pub fn modulus(p: u32) -> u64 {
    1 << p
}

/// a + q × b modulo 2^p.
pub fn plus(a: u64, q: u64, b: u64, p: u32) -> u64 {
    (a + q * b % modulus(p)) % modulus(p)
}

/// −a modulo 2^p.
pub fn negative(a: u64, p: u32) -> u64 {
    (modulus(p) - a) % modulus(p)
}

/// κ of a non-zero coefficient: how many times 2 divides it.
pub fn kappa(a: u64) -> u32 {
    assert_ne!(a, 0, "κ is of a non-zero coefficient");
    let mut rest = a;
    let mut times = 0;
    while rest.is_multiple_of(2) {
        rest /= 2;
        times += 1;
    }
    times
}

/// The inverse of an odd number: b^(2^p − 1), since the odd numbers modulo 2^p are a group whose order divides 2^p.
pub fn inverse(b: u64, p: u32) -> u64 {
    let mut power = b;
    let mut result = 1;
    for _ in 0..p {
        result = result * power % modulus(p);
        power = power * power % modulus(p);
    }
    result
}

#[cfg(test)]
mod tests {
    use super::*;

    #[test]
    fn an_inverse_times_its_number_is_one() {
        for p in 1..=32 {
            for b in (1..200u64).chain((0..200).map(|d| modulus(p) - 1 - d % modulus(p))).filter(|b| b % 2 == 1) {
                let b = b % modulus(p);
                assert_eq!(b * inverse(b, p) % modulus(p), 1, "{b} at width {p}");
            }
        }
    }
}
