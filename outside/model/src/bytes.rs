//! The sheet in bytes, and the table of refusals.

use crate::sheet::{Constraint, Kind, Sheet};

/// 8 + m × (1 + 8 × (n + 1)): the size of a sheet of n words and m constraints.
pub fn size(n: usize, m: usize) -> usize {
    8 + m * (1 + 8 * (n + 1))
}

fn number(bytes: &[u8]) -> u64 {
    bytes.iter().fold(0, |high, &low| high * 256 + low as u64)
}

/// A constraint as it stands in the bytes: its kind and its 2 × (n + 1) numbers.
fn raw_constraints(sheet: &[u8]) -> Vec<(u8, Vec<u64>)> {
    let n = sheet[6] as usize;
    let each = size(n, 1) - size(n, 0);
    sheet[8..].chunks(each).map(|bytes| (bytes[0], bytes[1..].chunks(4).map(number).collect())).collect()
}

/// The lowest number of the table that applies, or 0 where none does.
pub fn refusal(sheet: &[u8], list: &[u8], room: usize, fate_room: usize) -> u8 {
    if sheet.len() < 8 || number(&sheet[..4]) != sheet.len() as u64 - 4 {
        return 1;
    }
    if sheet[4] != 1 {
        return 2;
    }
    let p = sheet[5] as u32;
    if p == 0 || p > 32 {
        return 3;
    }
    let n = sheet[6] as usize;
    if n == 0 || n > 16 {
        return 4;
    }
    let m = sheet[7] as usize;
    if m > 64 || sheet.len() != size(n, m) {
        return 5;
    }
    let constraints = raw_constraints(sheet);
    if constraints.iter().any(|(kind, _)| *kind > 3) {
        return 6;
    }
    if constraints.iter().any(|(_, numbers)| numbers.iter().any(|&v| v >= 1 << p)) {
        return 7;
    }
    let equalities = constraints.iter().filter(|(kind, _)| *kind == 0).count();
    if equalities > 32 || m - equalities > 32 {
        return 8;
    }
    let listed_twice = (1..list.len()).any(|i| list[..i].contains(&list[i]));
    if list.iter().any(|&x| x as usize >= n) || listed_twice {
        return 9;
    }
    if room < size(n, 48) {
        return 10;
    }
    if fate_room < list.len() {
        return 11;
    }
    0
}

/// The sheet that bytes say, which no row of the table refuses.
pub fn read(sheet: &[u8]) -> Sheet {
    let words = sheet[6] as usize;
    let constraints = raw_constraints(sheet)
        .into_iter()
        .map(|(kind, numbers)| Constraint {
            kind: Kind::of(kind),
            left: numbers[..words + 1].to_vec(),
            right: numbers[words + 1..].to_vec(),
        })
        .collect();
    Sheet { width: sheet[5] as u32, words, constraints }
}

/// The bytes of a sheet.
pub fn write(sheet: &Sheet) -> Vec<u8> {
    let m = sheet.constraints.len();
    let mut bytes = (size(sheet.words, m) as u32 - 4).to_be_bytes().to_vec();
    bytes.extend([1, sheet.width as u8, sheet.words as u8, m as u8]);
    for constraint in &sheet.constraints {
        bytes.push(constraint.kind as u8);
        for &v in constraint.left.iter().chain(&constraint.right) {
            bytes.extend((v as u32).to_be_bytes());
        }
    }
    bytes
}
