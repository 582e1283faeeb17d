//! A line taken apart: its words and signs with their columns, and reading them one by one.

use super::number::{Bytes, Number};
use super::place::{Mistake, Place};
use super::quote::quoted;

/// The signs that are words of their own, wherever they stand.
const SIGNS: [char; 4] = [':', '[', ']', ','];

/// What of a line is still to be read.
pub(super) struct Line<'a> {
    number: usize,
    /// The words, the next one last.
    words: Vec<(usize, &'a str)>,
    /// The column after what is read.
    end: usize,
}

impl<'a> Line<'a> {
    /// The line with this number. What follows a `#` is left out.
    pub(super) fn of(number: usize, text: &'a str) -> Self {
        Self::whole(number, text.split('#').next().unwrap_or_default())
    }

    /// The line with this number, in which `#` begins no comment.
    pub(super) fn whole(number: usize, text: &'a str) -> Self {
        let mut words = Vec::new();
        let (mut column, mut rest) = (1, text);
        while let Some(first) = rest.chars().next() {
            let length = match first {
                sign if SIGNS.contains(&sign) => first.len_utf8(),
                _ => rest.find(|c| ends_word(first, c)).unwrap_or(rest.len()),
            };
            let (word, after) = rest.split_at(length);
            if !first.is_whitespace() {
                words.push((column, word));
            }
            column += word.chars().count();
            rest = after;
        }
        words.reverse();
        let end = 1 + text.trim_end().chars().count();
        Self { number, words, end }
    }

    /// Whether nothing is left.
    pub(super) fn is_empty(&self) -> bool {
        self.words.is_empty()
    }

    /// The next word, which stays.
    pub(super) fn peek(&self) -> Option<&'a str> {
        self.words.last().map(|&(_, word)| word)
    }

    /// Where the next word stands, or where the line ends.
    pub(super) fn place(&self) -> Place {
        Place {
            line: self.number,
            column: self.words.last().map_or(self.end, |&(column, _)| column),
        }
    }

    /// Passes the next word if it is `word`, and tells whether it was.
    pub(super) fn pass(&mut self, word: &str) -> bool {
        let is_next = self.peek() == Some(word);
        if is_next {
            self.words.pop();
        }
        is_next
    }

    /// Passes the next word, which has to be `word`.
    pub(super) fn expect(&mut self, word: &str) -> Result<(), Mistake> {
        match self.pass(word) {
            true => Ok(()),
            false => Err(self.expected(&format!("`{word}`"))),
        }
    }

    /// Passes a number.
    pub(super) fn number<T: Bytes>(&mut self, number: Number<T>) -> Result<T, Mistake> {
        let Some(word) = self.peek() else {
            return Err(self.expected(number.what));
        };
        let read = number.read(word).map_err(|words| self.mistake(words))?;
        self.words.pop();
        Ok(read)
    }

    /// Passes numbers up to the sign `end`, where there is one, or the line's end; each is given with
    /// its place. Between two of them stand spaces or a comma.
    pub(super) fn numbers(
        &mut self,
        number: Number<u8>,
        end: Option<&str>,
    ) -> Result<Vec<(Place, u8)>, Mistake> {
        let mut numbers = Vec::new();
        let mut comma = false;
        while comma || !(self.is_empty() || self.peek() == end) {
            numbers.push((self.place(), self.number(number)?));
            comma = self.pass(",");
        }
        Ok(numbers)
    }

    /// Nothing may be left.
    pub(super) fn finish(&self) -> Result<(), Mistake> {
        match self.is_empty() {
            true => Ok(()),
            false => Err(self.expected("the line's end")),
        }
    }

    /// The mistake that `what` was expected where something else stands.
    pub(super) fn expected(&self, what: &str) -> Mistake {
        let found = match self.peek() {
            Some(word) => format!("found {}", quoted(word)),
            None => "the line ends here".to_owned(),
        };
        self.mistake(format!("expected {what}, {found}"))
    }

    /// A mistake at the next word.
    pub(super) fn mistake(&self, words: impl Into<String>) -> Mistake {
        Mistake::new(self.place(), words)
    }
}

/// Whether `next` ends what began with `first`: space or a word.
fn ends_word(first: char, next: char) -> bool {
    first.is_whitespace() != next.is_whitespace() || SIGNS.contains(&next)
}

#[cfg(test)]
mod tests {
    use super::Line;

    #[test]
    fn words_and_columns() {
        let line = Line::of(7, "\t0:wait  1 [0,\u{e9}1] # [2]");
        let mut words = line.words.clone();
        words.reverse();
        let expected = [
            (2, "0"),
            (3, ":"),
            (4, "wait"),
            (10, "1"),
            (12, "["),
            (13, "0"),
            (14, ","),
            (15, "\u{e9}1"),
            (17, "]"),
        ];
        assert_eq!(words, expected);
        assert_eq!(line.end, 18);
        assert_eq!(line.place().to_string(), "7:2");
    }

    #[test]
    fn nothing_but_a_comment() {
        for text in ["", "  ", "# 0: set 0 1", "   #"] {
            assert!(Line::of(1, text).is_empty(), "{text}");
        }
    }
}
