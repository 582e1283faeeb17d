//! Places in a text, and what is wrong there.

use std::error::Error;
use std::fmt;

/// A place in a text. Shown as `line:column`.
#[derive(Clone, Copy, PartialEq, Eq, PartialOrd, Ord, Hash, Debug)]
pub struct Place {
    /// The line, counted from 1.
    pub line: usize,
    /// The column, counted in characters from 1.
    pub column: usize,
}

impl Place {
    /// Where a text ends.
    pub fn end_of(text: &str) -> Self {
        let last = text.rsplit('\n').next().unwrap_or_default();
        Self {
            line: 1 + text.matches('\n').count(),
            column: 1 + last.chars().count(),
        }
    }
}

impl fmt::Display for Place {
    fn fmt(&self, f: &mut fmt::Formatter<'_>) -> fmt::Result {
        write!(f, "{}:{}", self.line, self.column)
    }
}

/// What is wrong in a text, and where. Shown as `line:column: words`.
#[derive(Clone, PartialEq, Eq, Hash, Debug)]
pub struct Mistake {
    /// The line, counted from 1.
    pub line: usize,
    /// The column, counted in characters from 1.
    pub column: usize,
    /// What was expected, and what stands there.
    pub words: String,
}

impl Mistake {
    /// A mistake at `place`.
    pub fn new(place: Place, words: impl Into<String>) -> Self {
        Self {
            line: place.line,
            column: place.column,
            words: words.into(),
        }
    }
}

impl fmt::Display for Mistake {
    fn fmt(&self, f: &mut fmt::Formatter<'_>) -> fmt::Result {
        write!(f, "{}:{}: {}", self.line, self.column, self.words)
    }
}

impl Error for Mistake {}

#[cfg(test)]
mod tests {
    use super::Place;

    #[test]
    fn the_end_of_a_text() {
        let ends = ["", "ab", "ab\n", "ab\n\u{e9}\u{20ac}"].map(Place::end_of);
        assert_eq!(
            ends.map(|end| end.to_string()),
            ["1:1", "1:3", "2:1", "2:3"]
        );
    }
}
