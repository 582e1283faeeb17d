//! Numbers in a text: how they are written, and what each is.

use super::quote::quoted;
use std::fmt::Display;
use std::marker::PhantomData;

/// A number that a text asks for. Every number that fits its bytes is taken: whether there is such a
/// cell, mailbox, mutex or actor is the engine's to say.
#[derive(Clone, Copy, Debug)]
pub struct Number<T> {
    /// What it is.
    pub what: &'static str,
    bytes: PhantomData<T>,
}

/// The bytes that a number has to fit.
pub trait Bytes: TryFrom<u64> + Display {
    /// The most that fits.
    const MOST: Self;
}

impl Bytes for u8 {
    const MOST: Self = Self::MAX;
}

impl Bytes for u32 {
    const MOST: Self = Self::MAX;
}

impl Bytes for u64 {
    const MOST: Self = Self::MAX;
}

/// A cell.
pub const CELL: Number<u8> = Number::of("a cell's number");
/// A mailbox.
pub const MAILBOX: Number<u8> = Number::of("a mailbox's number");
/// A mutex.
pub const MUTEX: Number<u8> = Number::of("a mutex's number");
/// An actor.
pub const ACTOR: Number<u8> = Number::of("an actor's number");
/// An action, within its actor.
pub const ACTION: Number<u8> = Number::of("an action's number");
/// A value for a cell.
pub const VALUE: Number<u32> = Number::of("a value");

impl<T> Number<T> {
    /// A number; `what` says what it is.
    pub const fn of(what: &'static str) -> Self {
        Self {
            what,
            bytes: PhantomData,
        }
    }
}

impl<T: Bytes> Number<T> {
    /// The number that `word` is; otherwise what is wrong with it.
    pub fn read(&self, word: &str) -> Result<T, String> {
        let (what, most) = (self.what, T::MOST);
        match number(word).map(T::try_from) {
            None => Err(format!("expected {what}, found {}", quoted(word))),
            Some(Err(_)) => Err(format!(
                "{} is too large for {what}: at most {most}",
                quoted(word)
            )),
            Some(Ok(fits)) => Ok(fits),
        }
    }
}

/// The number that `word` is, decimal or hexadecimal after `0x` or `0X`; `None` where it is no number. One
/// that is too large for 64 bits is the largest of them.
fn number(word: &str) -> Option<u64> {
    let (digits, radix) = match word.strip_prefix("0x").or_else(|| word.strip_prefix("0X")) {
        Some(digits) => (digits, 16),
        None => (word, 10),
    };
    if digits.is_empty() {
        return None;
    }
    digits.chars().try_fold(0u64, |number, digit| {
        let digit = u64::from(digit.to_digit(radix)?);
        Some(number.saturating_mul(radix.into()).saturating_add(digit))
    })
}

#[cfg(test)]
mod tests {
    use super::{CELL, VALUE, number};

    #[test]
    fn decimal_and_hexadecimal() {
        let words = ["0", "007", "255", "0x95", "0xFf", "0Xa5", "4294967296"];
        let numbers = [0, 7, 255, 149, 255, 165, 1 << 32];
        assert_eq!(words.map(number), numbers.map(Some));
        assert_eq!(number("99999999999999999999999"), Some(u64::MAX));
    }

    #[test]
    fn no_numbers() {
        for word in [
            "", "0x", "0X", "0x0x1", "x", "-1", "+1", "1_0", "95h", "0x9g", "1.0",
        ] {
            assert_eq!(number(word), None, "{word}");
        }
    }

    #[test]
    fn what_fits_is_taken() {
        assert_eq!(CELL.read("255"), Ok(255));
        let words = "`256` is too large for a cell's number: at most 255";
        assert_eq!(CELL.read("256"), Err(words.to_owned()));
        let words = "expected a cell's number, found `x`";
        assert_eq!(CELL.read("x"), Err(words.to_owned()));
        assert_eq!(VALUE.read("0xFFFFFFFF"), Ok(u32::MAX));
        let words = "`4294967296` is too large for a value: at most 4294967295";
        assert_eq!(VALUE.read("4294967296"), Err(words.to_owned()));
    }
}
