//! How long a file is that need not be read to its end.

use std::fmt;

/// A number of bytes, as far as it is known.
#[derive(Clone, Copy, PartialEq, Eq, Debug)]
pub enum Length {
    /// So many.
    Exactly(u64),
    /// More than so many: of a pipe or a device that goes on.
    Over(u64),
}

impl Length {
    /// Without the first `bytes`, which are there.
    pub fn after(self, bytes: usize) -> Self {
        let less = |number: u64| number.saturating_sub(bytes as u64);
        match self {
            Self::Exactly(number) => Self::Exactly(less(number)),
            Self::Over(number) => Self::Over(less(number)),
        }
    }
}

impl fmt::Display for Length {
    fn fmt(&self, f: &mut fmt::Formatter<'_>) -> fmt::Result {
        match self {
            Self::Exactly(number) => write!(f, "{number}"),
            Self::Over(number) => write!(f, "more than {number}"),
        }
    }
}
