//! A sheet as the rules speak of it: a width, a number of words, and constraints in order.

/// A sum of coefficient times word, plus a constant: the coefficients in order of the words, then the constant.
pub type Term = Vec<u64>;

#[derive(Clone, Copy, PartialEq, Eq, Debug)]
pub enum Kind {
    Equal,
    Different,
    AtMost,
    Below,
}

impl Kind {
    pub fn of(byte: u8) -> Kind {
        match byte {
            0 => Kind::Equal,
            1 => Kind::Different,
            2 => Kind::AtMost,
            3 => Kind::Below,
            _ => panic!("no kind has the number {byte}"),
        }
    }

    /// Whether the comparison holds between two values.
    pub fn compares(self, left: u64, right: u64) -> bool {
        match self {
            Kind::Equal => left == right,
            Kind::Different => left != right,
            Kind::AtMost => left <= right,
            Kind::Below => left < right,
        }
    }

    pub fn is_inequality(self) -> bool {
        matches!(self, Kind::AtMost | Kind::Below)
    }
}

#[derive(Clone, PartialEq, Eq, Debug)]
pub struct Constraint {
    pub kind: Kind,
    pub left: Term,
    pub right: Term,
}

impl Constraint {
    /// Whether the word occurs in the constraint, on whichever side.
    pub fn has(&self, x: usize) -> bool {
        self.left[x] != 0 || self.right[x] != 0
    }
}

/// Whether a term has no word in it.
pub fn is_constant(term: &Term) -> bool {
    term[..term.len() - 1].iter().all(|&c| c == 0)
}

/// The constant of a term.
pub fn constant(term: &Term) -> u64 {
    term[term.len() - 1]
}

#[derive(Clone, PartialEq, Eq, Debug)]
pub struct Sheet {
    pub width: u32,
    pub words: usize,
    pub constraints: Vec<Constraint>,
}

impl Sheet {
    /// The term 0 of this sheet's length.
    pub fn zero(&self) -> Term {
        vec![0; self.words + 1]
    }

    /// Whether the word occurs in some constraint.
    pub fn has(&self, x: usize) -> bool {
        self.constraints.iter().any(|c| c.has(x))
    }

    /// The sheet 1 = 0, of the same width and number of words.
    pub fn refuted(&self) -> Sheet {
        let mut one = self.zero();
        one[self.words] = 1;
        let constraint = Constraint { kind: Kind::Equal, left: one, right: self.zero() };
        Sheet { constraints: vec![constraint], ..*self }
    }
}
