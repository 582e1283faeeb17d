//! The draw: a schedule that a seed determines.

use crate::make::make;
use crate::refusal::Refusal;

/// Draws a schedule to its end, and gives its length: refusal 23, then 1 to 9. A refusal writes nothing.
pub fn draw(table: &[u8], seed: u32, buffer: &mut [u8]) -> Result<usize, Refusal> {
    let mut x = u64::from(seed);
    make(table, buffer, |ready| {
        x = next(x);
        ready[rank(x, ready.len())]
    })
}

/// What a draw replaces x by.
fn next(x: u64) -> u64 {
    (1_664_525 * x + 1_013_904_223) % (1 << 32)
}

/// The rank, from 0, among so many ready actors, of the x that the draw has put in place.
fn rank(x: u64, ready: usize) -> usize {
    (x / 65_536) as usize % ready
}

#[cfg(test)]
mod tests {
    use super::{next, rank};

    #[test]
    fn numbers_worked_out_by_hand() {
        assert_eq!(next(0), 1_013_904_223);
        assert_eq!(next(1), 1_013_904_223 + 1_664_525);
        assert_eq!(next(1_013_904_223), 1_196_435_762);
        assert_eq!(next(1 << 31), (1 << 31) + 1_013_904_223);
        assert_eq!(next(u64::from(u32::MAX)), 1_013_904_223 - 1_664_525);
    }

    #[test]
    fn the_upper_half_of_x_gives_the_rank() {
        assert_eq!(rank(65_535, 8), 0);
        assert_eq!(rank(65_536, 8), 1);
        assert_eq!(rank(1_013_904_223, 7), 15_470 % 7);
        assert_eq!(rank(u64::from(u32::MAX), 1), 0);
    }
}
