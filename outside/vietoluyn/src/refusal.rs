//! The table of refusals, by name.

use std::fmt;

/// Why a call was refused: the lowest row of the table that applies.
#[derive(Clone, Copy, PartialEq, Eq, PartialOrd, Ord, Hash, Debug)]
pub enum Refusal {
    /// Fewer than 8 bytes, or the count differs from the bytes after it.
    Count = 1,
    /// The version is not 1.
    Version = 2,
    /// p is 0 or above 32.
    Width = 3,
    /// n is 0 or above 16.
    Words = 4,
    /// m is above 64, or the size differs from the formula.
    Size = 5,
    /// A kind is above 3.
    Kind = 6,
    /// A number is 2^p or more.
    Number = 7,
    /// There are more than 32 equalities, or more than 32 others.
    TooMany = 8,
    /// A listed number is n or more, or listed twice.
    List = 9,
    /// The sheet buffer is shorter than 8 + 48 × (1 + 8 × (n + 1)).
    SheetBuffer = 10,
    /// The fate buffer is shorter than the list.
    FateBuffer = 11,
}

impl Refusal {
    /// All rows of the table, in order.
    pub const ALL: [Refusal; 11] = [
        Refusal::Count,
        Refusal::Version,
        Refusal::Width,
        Refusal::Words,
        Refusal::Size,
        Refusal::Kind,
        Refusal::Number,
        Refusal::TooMany,
        Refusal::List,
        Refusal::SheetBuffer,
        Refusal::FateBuffer,
    ];

    /// The refusal's number in the table.
    pub fn number(self) -> u8 {
        self as u8
    }

    /// The refusal with a number; nothing for 0, which is no refusal.
    pub(crate) fn of(number: u64) -> Option<Refusal> {
        let before = number.checked_sub(1)?;
        Some(*Refusal::ALL.get(before as usize).expect("the library refuses by the numbers of the table only"))
    }
}

impl fmt::Display for Refusal {
    fn fmt(&self, f: &mut fmt::Formatter<'_>) -> fmt::Result {
        f.write_str(match self {
            Refusal::Count => "the sheet has fewer than 8 bytes, or its count differs from the bytes after it",
            Refusal::Version => "the sheet's version is not 1",
            Refusal::Width => "the width p is 0 or above 32",
            Refusal::Words => "the number of words n is 0 or above 16",
            Refusal::Size => "the number of constraints m is above 64, or the sheet's size does not fit n and m",
            Refusal::Kind => "a constraint's kind is above 3",
            Refusal::Number => "a number of the sheet is 2^p or more",
            Refusal::TooMany => "the sheet has more than 32 equalities, or more than 32 other constraints",
            Refusal::List => "a listed number is n or more, or it is listed twice",
            Refusal::SheetBuffer => "the sheet buffer is shorter than 8 + 48 × (1 + 8 × (n + 1))",
            Refusal::FateBuffer => "the fate buffer is shorter than the list",
        })
    }
}

impl std::error::Error for Refusal {}

#[cfg(test)]
mod tests {
    use super::*;

    #[test]
    fn numbers_and_refusals_agree() {
        assert_eq!(Refusal::of(0), None);
        for (i, refusal) in Refusal::ALL.into_iter().enumerate() {
            assert_eq!(refusal.number() as usize, i + 1);
            assert_eq!(Refusal::of(i as u64 + 1), Some(refusal));
        }
    }
}
