//! What the engine answers on a point, in words.

use std::fmt;

use crate::engine::REFUSAL;
use crate::report::Value;

pub const OUTSIDE: u64 = 0;
pub const INSIDE: u64 = 1;
/// Of a mesh alone.
pub const UNDECIDED: u64 = 2;

/// An answer, or a refusal.
#[derive(Clone, Copy, Debug, PartialEq, Eq, PartialOrd, Ord)]
pub struct Answer(pub u64);

impl From<u64> for Answer {
    fn from(answer: u64) -> Self {
        Self(answer)
    }
}

impl fmt::Display for Answer {
    fn fmt(&self, f: &mut fmt::Formatter) -> fmt::Result {
        match self.0 {
            OUTSIDE => write!(f, "outside"),
            INSIDE => write!(f, "inside"),
            UNDECIDED => write!(f, "undecided"),
            n if n % REFUSAL == 0 => write!(f, "refusal {}", n / REFUSAL),
            n => write!(f, "{n}"),
        }
    }
}

impl Value for Answer {
    fn same(self, other: Self) -> bool {
        self == other
    }

    fn text(self) -> String {
        self.to_string()
    }
}

#[cfg(test)]
mod tests {
    use super::*;

    #[test]
    fn answers_are_in_words() {
        assert_eq!(Answer(0).text(), "outside");
        assert_eq!(Answer(1).text(), "inside");
        assert_eq!(Answer(2).text(), "undecided");
        assert_eq!(Answer(11_000_000).text(), "refusal 11");
        assert_eq!(Answer(9_000_001).text(), "9000001");
    }
}
