//! Two recordings, which need not end together: what both have, and what is left of the longer.

use crate::length::Length;
use crate::source::Source;
use order_engine::{Recording, remainder};

/// Two recordings, the longer held to the length of the shorter.
#[derive(Clone, Copy, PartialEq, Eq, Debug)]
pub struct Recordings<'a> {
    /// The first, as far as both go.
    pub first: &'a [u8],
    /// The second, as far as both go.
    pub second: &'a [u8],
    longer: Recording,
    left: Length,
}

impl<'a> Recordings<'a> {
    /// These two, parted from the remainder that the engine says. The shorter is read to its end, or
    /// it is refused.
    pub fn of(first: &'a Source, second: &'a Source) -> Self {
        let longer = remainder::fields(first, second).which();
        let left = remainder(first, second).len();
        let without = |whole: &'a [u8]| &whole[..whole.len() - left];
        let (first, second, length) = match longer {
            Recording::First => (without(first), &second[..], first.length()),
            Recording::Second => (&first[..], without(second), second.length()),
        };
        Self {
            first,
            second,
            longer,
            left: length.after(first.len()),
        }
    }

    /// How many entries of which are left over, in a line.
    pub fn left_over(&self) -> String {
        let which = match self.longer {
            Recording::First => "first",
            Recording::Second => "second",
        };
        match self.left {
            Length::Exactly(0) => "No entry is left over.\n".to_owned(),
            Length::Exactly(1) => {
                format!("1 entry of the {which} is left over and plays no part.\n")
            }
            left => format!("{left} entries of the {which} are left over and play no part.\n"),
        }
    }
}

#[cfg(test)]
mod tests {
    use super::Recordings;
    use crate::operand::{FIRST, SECOND};
    use crate::source::Source;

    #[test]
    fn parted() {
        for (first, second, left) in [
            (&[0, 0, 1, 1][..], &[1, 0][..], "2 entries of the first are"),
            (&[0, 0, 1], &[1, 0], "1 entry of the first is"),
            (&[1, 0], &[0, 0, 1], "1 entry of the second is"),
            (&[], &[0, 0, 1], "3 entries of the second are"),
            (&[1, 0], &[0, 1], "No entry is"),
            (&[], &[], "No entry is"),
        ] {
            let one = Source::of_bytes(&FIRST, "one", first.to_vec());
            let other = Source::of_bytes(&SECOND, "other", second.to_vec());
            let parted = Recordings::of(&one, &other);
            let length = first.len().min(second.len());
            assert_eq!(parted.first, &first[..length]);
            assert_eq!(parted.second, &second[..length]);
            let words = parted.left_over();
            assert!(words.starts_with(&format!("{left} left over")), "{words}");
        }
    }
}
