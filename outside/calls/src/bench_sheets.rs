//! The fourteen bench sheets of the rules, with the answers, fates and walks that the rules give for them.

use crate::sheets::{Draft, AT_MOST, BELOW, DIFFERENT, EQUAL};
use crate::Call;

/// A bench sheet: the call, and what it must come to.
pub struct BenchSheet {
    pub name: &'static str,
    pub call: Call,
    pub answer: Draft,
    pub fates: Vec<u8>,
    pub walks: usize,
}

type Side = [u32; 4];
const NONE: Side = [0, 0, 0, 0];

fn draft(p: u32, constraints: &[(u8, Side, Side)]) -> Draft {
    Draft { p, n: 3, constraints: constraints.iter().map(|(k, l, r)| (*k, l.to_vec(), r.to_vec())).collect() }
}

/// B1 to B14. A side is the coefficients of x, y, z and the constant.
pub fn all() -> Vec<BenchSheet> {
    let mut sheets = Vec::new();
    let mut row =
        |name, p, sheet: &[(u8, Side, Side)], list: &[u8], answer: &[(u8, Side, Side)], fates: &[u8], walks| {
            let call = Call::new(&draft(p, sheet), list);
            sheets.push(BenchSheet { name, call, answer: draft(p, answer), fates: fates.to_vec(), walks });
        };
    row(
        "B1",
        3,
        &[(EQUAL, [6, 1, 0, 0], [0, 0, 0, 4]), (DIFFERENT, [2, 0, 1, 0], NONE), (AT_MOST, [4, 1, 0, 0], [0, 0, 0, 3])],
        &[0],
        &[(EQUAL, [0, 4, 0, 0], NONE), (DIFFERENT, [0, 5, 1, 4], NONE), (AT_MOST, [0, 3, 0, 0], [0, 0, 0, 3])],
        &[2],
        1,
    );
    row(
        "B2",
        3,
        &[
            (EQUAL, [0, 0, 1, 0], [4, 1, 0, 0]),
            (AT_MOST, [6, 1, 0, 0], [0, 0, 0, 4]),
            (DIFFERENT, [1, 0, 0, 0], [0, 0, 1, 0]),
        ],
        &[0],
        &[(EQUAL, [0, 2, 6, 0], NONE)],
        &[3],
        1,
    );
    row(
        "B3",
        3,
        &[(EQUAL, [2, 3, 0, 0], [0, 0, 0, 4]), (AT_MOST, [1, 1, 0, 0], [0, 0, 0, 3])],
        &[0],
        &[(EQUAL, [0, 4, 0, 0], NONE)],
        &[3],
        1,
    );
    row(
        "B4",
        3,
        &[(EQUAL, [2, 3, 0, 0], [0, 0, 0, 4]), (AT_MOST, [1, 1, 0, 0], [0, 0, 0, 2])],
        &[0],
        &[(EQUAL, [2, 3, 0, 4], NONE), (EQUAL, [0, 4, 0, 0], NONE), (AT_MOST, [1, 1, 0, 0], [0, 0, 0, 2])],
        &[0],
        1,
    );
    row("B5", 3, &[(EQUAL, [2, 0, 0, 0], [0, 0, 0, 1])], &[], &[(EQUAL, [0, 0, 0, 1], NONE)], &[], 0);
    row(
        "B6",
        3,
        &[(EQUAL, [6, 1, 0, 0], [0, 0, 0, 4])],
        &[],
        &[(EQUAL, [2, 3, 0, 4], NONE), (EQUAL, [0, 4, 0, 0], NONE)],
        &[],
        0,
    );
    let x_y = (DIFFERENT, [1, 0, 0, 0], [0, 1, 0, 0]);
    let x_z = (DIFFERENT, [1, 0, 0, 0], [0, 0, 1, 0]);
    row("B7", 1, &[x_y], &[0], &[], &[3], 1);
    row("B8", 1, &[x_y, x_z], &[0], &[(DIFFERENT, [1, 1, 0, 0], NONE), (DIFFERENT, [1, 0, 1, 0], NONE)], &[0], 1);
    row("B9", 1, &[x_y, x_z], &[0, 1], &[], &[3, 3], 2);
    let b10 = (AT_MOST, [2, 0, 0, 0], [1, 0, 0, 0]);
    row("B10", 3, &[b10], &[0], &[b10], &[0], 1);
    let b11 = (BELOW, [1, 0, 0, 0], NONE);
    row("B11", 3, &[b11], &[0], &[b11], &[0], 1);
    row(
        "B12",
        3,
        &[(EQUAL, [2, 0, 0, 0], [0, 0, 0, 2]), (EQUAL, [6, 0, 0, 0], [0, 0, 0, 6])],
        &[],
        &[(EQUAL, [2, 0, 0, 6], NONE)],
        &[],
        0,
    );
    row("B13", 32, &[(EQUAL, [4294967295, 0, 0, 0], [0, 0, 0, 1])], &[], &[(EQUAL, [1, 0, 0, 1], NONE)], &[], 0);
    row("B14", 3, &[], &[], &[], &[], 0);
    sheets
}
