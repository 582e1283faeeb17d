//! The same verdict on two recordings as far as both go: their entries are paired off, one of each, until
//! one recording has none left.

use crate::refusal::Refusal;
use crate::same::{Same, same};

/// Whether the parts of two recordings that were paired off are the same: all as [`crate::same()`] says
/// of those parts.
pub fn prefix(table: &[u8], first: &[u8], second: &[u8]) -> Result<Same, Refusal> {
    let pairs = first.iter().zip(second);
    let (first, second): (Vec<u8>, Vec<u8>) = pairs.unzip();
    same(table, &first, &second)
}
