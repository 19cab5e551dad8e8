//! What the program prints, for any bytes on standard input ("The listing" in the rules).

use crate::bytes;
use crate::sheet::{Kind, Sheet};
use crate::walk::Fate;

/// "Above 16,384 bytes it prints `refused 1`", whatever the bytes are.
const MOST: usize = 16_384;

/// The text that the program prints for an input.
pub fn listing(input: &[u8]) -> String {
    if input.len() > MOST {
        return refused(1);
    }
    let (sheet, list) = parted(input);
    // The program's own buffers refuse nothing: one is long enough for a sheet of sixteen words, the other for the list.
    let (mut out, mut fates) = (vec![0; bytes::size(16, 48)], vec![0; list.len()]);
    let answer = crate::hide(sheet, list, &mut out, &mut fates);
    if answer.refused != 0 {
        return refused(answer.refused);
    }
    let mut text = sheet_lines(&bytes::read(&out[..answer.length]));
    for (word, &fate) in list.iter().zip(&fates) {
        text += &format!("fate {word} {}\n", fate_name(fate));
    }
    text
}

/// "A sheet, then list bytes to the end. Bytes that fall short of the sheet's count all go in as the sheet", and so do
/// fewer than four, which have no count to fall short of.
fn parted(input: &[u8]) -> (&[u8], &[u8]) {
    let all_of_it = (input, &[][..]);
    let Some((count, after)) = input.split_first_chunk::<4>() else {
        return all_of_it;
    };
    let count = u32::from_be_bytes(*count) as usize;
    if after.len() < count {
        return all_of_it;
    }
    input.split_at(4 + count)
}

fn refused(number: u8) -> String {
    format!("refused {number}\n")
}

/// "First line: the answer's p, n, m. Then a line per constraint: kind (eq, ne, le, lt), left coefficients and constant,
/// bar, right side."
fn sheet_lines(sheet: &Sheet) -> String {
    let mut text = format!("sheet {} {} {}\n", sheet.width, sheet.words, sheet.constraints.len());
    for constraint in &sheet.constraints {
        let side = |term: &[u64]| term.iter().map(u64::to_string).collect::<Vec<_>>().join(" ");
        let (left, right) = (side(&constraint.left), side(&constraint.right));
        text += &format!("{} {left} | {right}\n", kind_name(constraint.kind));
    }
    text
}

fn kind_name(kind: Kind) -> &'static str {
    match kind {
        Kind::Equal => "eq",
        Kind::Different => "ne",
        Kind::AtMost => "le",
        Kind::Below => "lt",
    }
}

/// "Left, absent, layer1 or layer2."
fn fate_name(byte: u8) -> &'static str {
    let named = [(Fate::Left, "left"), (Fate::Absent, "absent"), (Fate::Layer1, "layer1"), (Fate::Layer2, "layer2")];
    let found = named.iter().find(|(fate, _)| *fate as u8 == byte);
    found.expect("a fate byte is one of the four").1
}

#[cfg(test)]
mod tests {
    use super::*;
    use calls::sheets::{Draft, AT_MOST, BELOW, DIFFERENT, EQUAL};

    /// A bench sheet and its list as the program is given them.
    fn bench_input(name: &str) -> Vec<u8> {
        let sheets = calls::bench_sheets::all();
        let call = &sheets.iter().find(|bench| bench.name == name).unwrap().call;
        [&call.sheet[..], &call.list].concat()
    }

    /// B1's input, resized, with another count in its first four bytes.
    fn b1_with(length: usize, count: u32) -> Vec<u8> {
        let mut input = bench_input("B1");
        input.resize(length, 0);
        input[..4].copy_from_slice(&count.to_be_bytes());
        input
    }

    #[test]
    fn b1_is_listed_as_the_rules_print_it() {
        let printed = "\
sheet 3 3 3
eq 0 4 0 0 | 0 0 0 0
ne 0 5 1 4 | 0 0 0 0
le 0 3 0 0 | 0 0 0 3
fate 0 layer1
";
        assert_eq!(listing(&bench_input("B1")), printed);
    }

    #[test]
    fn the_fates_stand_in_list_order() {
        assert_eq!(listing(&bench_input("B9")), "sheet 1 3 0\nfate 0 layer2\nfate 1 layer2\n");
        assert_eq!(listing(&bench_input("B11")), "sheet 3 3 1\nlt 1 0 0 0 | 0 0 0 0\nfate 0 left\n");
        assert_eq!(listing(&bench_input("B14")), "sheet 3 3 0\n");
        let mut all_absent = bench_input("B14");
        all_absent.extend([2, 0, 1]);
        assert_eq!(listing(&all_absent), "sheet 3 3 0\nfate 2 absent\nfate 0 absent\nfate 1 absent\n");
    }

    #[test]
    fn numbers_are_decimal_up_to_the_greatest() {
        let top = u32::MAX;
        let constraints = vec![
            (EQUAL, vec![0, 1 << 31, 0], vec![0, 0, 0]),
            (DIFFERENT, vec![top, 0, 10], vec![0, 0, 0]),
            (AT_MOST, vec![1, 100, 0], vec![top, 1_000_000_000, 999_999_999]),
            (BELOW, vec![0, 1, 0], vec![1, 0, top]),
        ];
        let printed = "\
sheet 32 2 4
eq 0 2147483648 0 | 0 0 0
ne 4294967295 0 10 | 0 0 0
le 1 100 0 | 4294967295 1000000000 999999999
lt 0 1 0 | 1 0 4294967295
";
        assert_eq!(listing(&Draft { p: 32, n: 2, constraints }.bytes()), printed);
    }

    #[test]
    fn too_few_bytes_and_too_many_are_refused_by_1() {
        for length in 0..8 {
            assert_eq!(listing(&vec![0; length]), "refused 1\n");
            assert_eq!(listing(&bench_input("B1")[..length]), "refused 1\n");
        }
        // B1 with a list that is far too long, just within the most and just above.
        let count = bench_input("B1").len() as u32 - 5;
        assert_eq!(listing(&b1_with(16_384, count)), "refused 9\n");
        assert_eq!(listing(&b1_with(16_385, count)), "refused 1\n");
        // All of the bytes as the sheet, by its count.
        assert_eq!(listing(&b1_with(16_384, 16_380)), "refused 5\n");
        assert_eq!(listing(&b1_with(16_385, 16_381)), "refused 1\n");
        assert_eq!(listing(&b1_with(16_385, 16_380)), "refused 1\n");
    }

    #[test]
    fn what_follows_the_count_is_the_list() {
        let sheet = [0, 0, 0, 4, 1, 3, 3, 0];
        for list in [&[][..], &[0], &[2, 0, 1], &[7; 300]] {
            assert_eq!(parted(&[&sheet, list].concat()), (&sheet[..], list));
        }
        // A count below 4 ends the sheet within its header.
        assert_eq!(parted(&[0, 0, 0, 1, 1, 3, 3, 0]), (&[0, 0, 0, 1, 1][..], &[3, 3, 0][..]));
        assert_eq!(parted(&[0, 0, 0, 0]), (&[0, 0, 0, 0][..], &[][..]));
    }

    #[test]
    fn bytes_that_fall_short_of_the_count_all_go_in_as_the_sheet() {
        for input in [&[][..], &[0], &[0, 0, 0], &[0, 0, 0, 1], &[0, 0, 0, 5, 1, 3, 3, 0], &[255; 8]] {
            assert_eq!(parted(input), (input, &[][..]));
        }
        // B1's one list byte is taken in by a count one too large; a larger count goes past the end.
        let length = bench_input("B1").len();
        let right = length as u32 - 5;
        assert_eq!(listing(&b1_with(length, right + 1)), "refused 5\n");
        for count in [right + 2, right + (1 << 16), right + (1 << 24), 1 << 31, u32::MAX - 3, u32::MAX] {
            assert_eq!(listing(&b1_with(length, count)), "refused 1\n", "count {count}");
        }
    }
}
