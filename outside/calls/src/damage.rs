//! Damaged calls: every row of the table of refusals, alone and together with others.

use crate::random::Random;
use crate::sheets::{Draft, Maker};
use crate::{size, Call};

/// A call with one damage, or with several, or one that is short or has a strange header.
pub fn any(random: &mut Random) -> Call {
    match random.below(10) {
        0..=4 => {
            let row = 1 + random.below(11) as usize;
            with(random, &[row])
        }
        5..=8 => {
            let count = *random.pick(&[2, 2, 3, 4, 6]);
            let rows: Vec<usize> = random.words(11, count).iter().map(|&i| i as usize + 1).collect();
            with(random, &rows)
        }
        _ => odd_header(random),
    }
}

/// A call damaged so that these rows of the table apply, as far as they can stand together.
pub fn with(random: &mut Random, rows: &[usize]) -> Call {
    let asked = |row: usize| rows.contains(&row);
    let mut draft = small(random, asked(7), asked(8));
    if asked(6) {
        for _ in 0..random.between(1, 2) {
            let i = random.index(draft.constraints.len());
            draft.constraints[i].0 = *random.pick(&[4, 5, 128, 255]);
        }
    }
    if asked(7) {
        too_large(random, &mut draft);
    }
    let mut list = listed(random, &draft, asked(9), asked(11));
    let n = draft.n;
    let mut sheet = draft.bytes();
    if asked(5) {
        wrong_size(random, &mut sheet, &draft);
    }
    if asked(4) {
        sheet[6] = *random.pick(&[0, 17, 18, 128, 255]);
    }
    if asked(3) {
        sheet[5] = *random.pick(&[0, 33, 34, 64, 128, 255]);
    }
    if asked(2) {
        sheet[4] = *random.pick(&[0, 2, 255]);
    }
    if asked(1) {
        wrong_count(random, &mut sheet);
    }
    let need = size(n, 48);
    let mut room = need + random.pick(&[0, 0, 1, 37]);
    if asked(10) {
        room = *random.pick(&[need - 1, need - 1, 0, need / 2, 8, sheet.len().min(need - 1)]);
    }
    let mut fate_room = list.len() + random.pick(&[0, 0, 1, 6]);
    if asked(11) {
        fate_room = *random.pick(&[list.len() - 1, 0]);
    }
    if random.chance(1) {
        // A list far longer than any sheet has words.
        list.extend((0..300).map(|i| i as u8));
    }
    Call { sheet, list, room, fate_room }
}

/// A small sheet to be damaged: narrow where a number is to be too large, long where there are to be too many of a kind.
fn small(random: &mut Random, narrow: bool, many: bool) -> Draft {
    let p = if narrow { *random.pick(&[1, 2, 5, 8, 31]) } else { *random.pick(&[1, 2, 3, 8, 31, 32]) };
    let n = if many { *random.pick(&[1, 2]) } else { *random.pick(&[1, 1, 2, 2, 3, 4, 5, 16]) };
    let mut kinds: Vec<u8> = (0..random.between(1, 3)).map(|_| random.below(4) as u8).collect();
    if many {
        let count = *random.pick(&[33, 33, 34, 40, 64]);
        let rest = random.between(0, 64 - count);
        let equalities = random.chance(50);
        let mut kind = |equal: bool| if equal { 0 } else { 1 + random.below(3) as u8 };
        kinds = (0..count).map(|_| kind(equalities)).collect();
        kinds.extend((0..rest).map(|_| kind(!equalities)));
        random.shuffle(&mut kinds);
    }
    let make = &mut Maker { random, p, n };
    let constraints = kinds.into_iter().map(|kind| (kind, make.term(60), make.term(60))).collect();
    Draft { p, n, constraints }
}

fn too_large(random: &mut Random, draft: &mut Draft) {
    let whole = 1u32 << draft.p;
    let last = draft.constraints.len() - 1;
    let (any_i, any_j) = (random.index(last + 1), random.index(draft.n + 1));
    let i = *random.pick(&[0, last, any_i]);
    let j = *random.pick(&[0, draft.n, any_j]);
    let value = *random.pick(&[whole, whole + 1, u32::MAX, 1 << 31]);
    let (_, left, right) = &mut draft.constraints[i];
    let side = if random.chance(50) { left } else { right };
    side[j] = value;
}

/// A list for the sheet; wrong by a number that is n or more or by one that is listed twice; not empty where asked.
fn listed(random: &mut Random, draft: &Draft, wrong: bool, some: bool) -> Vec<u8> {
    let n = draft.n;
    let count = random.between(some as usize, n);
    let mut list = random.words(n, count);
    if wrong {
        let at = random.index(list.len() + 1);
        let word = match list.first() {
            Some(_) if random.chance(50) => *random.pick(&list),
            _ => *random.pick(&[n as u8, n as u8, n as u8 + 1, 128, 255]),
        };
        list.insert(at, word);
    }
    list
}

fn count(sheet: &mut [u8], count: usize) {
    sheet[..4].copy_from_slice(&(count as u32).to_be_bytes());
}

/// Bytes too many or too few, told by the count; or m that does not fit, or fits and is above 64.
fn wrong_size(random: &mut Random, sheet: &mut Vec<u8>, draft: &Draft) {
    let each = size(draft.n, 1) - size(draft.n, 0);
    let m = draft.constraints.len();
    match random.below(4) {
        0 => sheet[7] = *random.pick(&[m + 1, m - 1, 65, 255]) as u8,
        1 => {
            let more = *random.pick(&[1, 4, each]);
            sheet.extend((0..more).map(|i| i as u8));
        }
        2 => sheet.truncate(sheet.len() - *random.pick(&[1, 2, each])),
        _ => {
            let m = *random.pick(&[65, 66, 128, 255]);
            let first = sheet[8..8 + each].to_vec();
            sheet.truncate(8);
            (0..m).for_each(|_| sheet.extend(&first));
            sheet[7] = m as u8;
        }
    }
    let after = sheet.len() - 4;
    count(sheet, after);
}

/// A count that differs from the bytes after it, also by its high bytes alone, or fewer than 8 bytes.
fn wrong_count(random: &mut Random, sheet: &mut Vec<u8>) {
    let after = sheet.len() - 4;
    match random.below(5) {
        0 | 1 => {
            let far = [0, after + 4, after + 1, after - 1, u32::MAX as usize, after << 8, 1 << 31];
            let high = [after + (1 << 16), after + (1 << 24), after + (1 << 31)];
            let wrong = if random.chance(60) { *random.pick(&far) } else { *random.pick(&high) };
            count(sheet, wrong);
        }
        2 => {
            let more = random.between(1, 5);
            sheet.extend(vec![0; more]);
        }
        3 => sheet.truncate(sheet.len() - 1),
        _ => {
            let short = random.index(8);
            sheet.truncate(short);
            if short >= 4 {
                // The count may well be right: 8 bytes are asked all the same.
                count(sheet, short - 4);
            }
        }
    }
}

/// A header of numbers at their limits over a body of zeros, often of just the size that it tells.
fn odd_header(random: &mut Random) -> Call {
    let p = *random.pick(&[0u8, 1, 32, 33, 128, 255]);
    let n = *random.pick(&[0u8, 1, 2, 16, 17, 255]);
    let m = *random.pick(&[0u8, 1, 2, 64, 65, 255]);
    let version = *random.pick(&[1u8, 1, 1, 1, 0, 2]);
    let told = size(n as usize, m as usize);
    let length = if told < 20_000 && random.chance(70) { told } else { random.between(8, 40) };
    let mut sheet = vec![0; length];
    count(&mut sheet, length - 4);
    sheet[4..8].copy_from_slice(&[version, p, n, m]);
    if random.chance(20) {
        // Any bytes at all.
        sheet.iter_mut().skip(4).for_each(|b| *b = random.bits() as u8);
    }
    let listed = random.index(4).min(n as usize);
    let list = random.words(n as usize, listed);
    let room = size((n as usize).min(16), 48);
    Call { sheet, list, room, fate_room: 4 }
}
