//! The sheet in bytes, and the table of refusals.

use crate::word::less;
use crate::{Row, Rows, Sides, CONSTANT};

/// The bytes of a constraint over n words.
fn each(n: usize) -> usize {
    1 + 8 * (n + 1)
}

fn number(bytes: &[u8]) -> u32 {
    u32::from_be_bytes([bytes[0], bytes[1], bytes[2], bytes[3]])
}

/// The lowest number of the table that applies, or 0 where none does.
pub fn refusal(sheet: &[u8], list: &[u8], room: usize, fate_room: usize) -> u8 {
    if sheet.len() < 8 || number(sheet) as usize != sheet.len() - 4 {
        return 1;
    }
    if sheet[4] != 1 {
        return 2;
    }
    let (p, n, m) = (sheet[5], sheet[6] as usize, sheet[7] as usize);
    if p == 0 || p > 32 {
        return 3;
    }
    if n == 0 || n > 16 {
        return 4;
    }
    if m > 64 || sheet.len() != 8 + m * each(n) {
        return 5;
    }
    let constraints = sheet[8..].chunks_exact(each(n));
    if constraints.clone().any(|c| c[0] > 3) {
        return 6;
    }
    let too_large = |v: &[u8]| (number(v) as u64) >> p != 0;
    if constraints.clone().any(|c| c[1..].chunks_exact(4).any(too_large)) {
        return 7;
    }
    let equalities = constraints.filter(|c| c[0] == 0).count();
    if equalities > 32 || m - equalities > 32 {
        return 8;
    }
    if bad_list(list, n) {
        return 9;
    }
    if room < 8 + 48 * each(n) {
        return 10;
    }
    if fate_room < list.len() {
        return 11;
    }
    0
}

fn bad_list(list: &[u8], n: usize) -> bool {
    list.iter().enumerate().any(|(i, &x)| x as usize >= n || list[i + 1..].contains(&x))
}

fn term(bytes: &[u8], n: usize) -> Row {
    let mut row = [0; 17];
    for (c, bytes) in row.iter_mut().zip(bytes[..4 * n].chunks_exact(4)) {
        *c = number(bytes);
    }
    row[CONSTANT] = number(&bytes[4 * n..]);
    row
}

/// Reads the constraints into the blocks, and tells how many equalities and others there are.
pub fn read(
    sheet: &[u8],
    p: u32,
    n: usize,
    rows: &mut Rows,
    kinds: &mut [u8; 32],
    sides: &mut Sides,
) -> (usize, usize) {
    let (mut eqs, mut others) = (0, 0);
    for constraint in sheet[8..].chunks_exact(each(n)) {
        let (left, right) = constraint[1..].split_at(4 * (n + 1));
        let (mut left, right) = (term(left, n), term(right, n));
        let kind = constraint[0];
        if kind <= 1 {
            left = less(&left, 1, &right, p);
        }
        if kind == 0 {
            rows[eqs] = left;
            eqs += 1;
        } else {
            kinds[others] = kind;
            sides[2 * others] = left;
            sides[2 * others + 1] = if kind == 1 { [0; 17] } else { right };
            others += 1;
        }
    }
    (eqs, others)
}

fn put_term(bytes: &mut [u8], n: usize, row: &Row) {
    for (bytes, c) in bytes[..4 * n].chunks_exact_mut(4).zip(row) {
        bytes.copy_from_slice(&c.to_be_bytes());
    }
    bytes[4 * n..].copy_from_slice(&row[CONSTANT].to_be_bytes());
}

fn put_constraint(bytes: &mut [u8], n: usize, kind: u8, left: &Row, right: &Row) {
    bytes[0] = kind;
    let (first, second) = bytes[1..].split_at_mut(4 * (n + 1));
    put_term(first, n, left);
    put_term(second, n, right);
}

/// Writes the sheet to the front of the buffer, and tells its size.
pub fn write(out: &mut [u8], p: u32, n: usize, rows: &[Row], kinds: &[u8], sides: &[Row]) -> usize {
    let m = rows.len() + kinds.len();
    let size = 8 + m * each(n);
    out[..4].copy_from_slice(&(size as u32 - 4).to_be_bytes());
    out[4..8].copy_from_slice(&[1, p as u8, n as u8, m as u8]);
    let (first, second) = out[8..size].split_at_mut(rows.len() * each(n));
    for (bytes, row) in first.chunks_exact_mut(each(n)).zip(rows) {
        put_constraint(bytes, n, 0, row, &[0; 17]);
    }
    for ((bytes, &kind), pair) in second.chunks_exact_mut(each(n)).zip(kinds).zip(sides.chunks_exact(2)) {
        put_constraint(bytes, n, kind, &pair[0], &pair[1]);
    }
    size
}
