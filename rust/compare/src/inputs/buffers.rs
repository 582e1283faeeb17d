//! Lent buffers: how long they are, and what they hold.

use crate::inputs::rng::Rng;

/// How long a buffer is of which a call wants `least`: mostly enough.
fn room(rng: &mut Rng, least: usize) -> usize {
    match rng.below(32) {
        0 => least.saturating_sub(1),
        1 => rng.below(least.max(1)),
        2 => rng.pick(&[0, 1, least / 30, least / 2]),
        3..12 => least,
        12..16 => least + 1,
        16 => rng.between(least, least.max(70_000)),
        _ => rng.between(least, least + 200),
    }
}

/// Bytes to tell by whether they were written, for a call that wants `least`.
pub fn bytes(rng: &mut Rng, buffer: &mut Vec<u8>, least: usize) {
    let length = room(rng, least);
    let mut byte = rng.byte();
    let step = rng.byte() | 1;
    let next = || {
        byte = byte.wrapping_add(step);
        byte
    };
    buffer.clear();
    buffer.extend(std::iter::repeat_with(next).take(length));
}

/// Entries to tell by whether they were written: none is an exchange of any schedule.
pub fn entries(rng: &mut Rng, buffer: &mut Vec<u16>, length: usize) {
    let salt = rng.bits() as u16 & 0x3fff;
    buffer.clear();
    buffer.extend((0..length).map(|at| 0x8000 | (salt + at as u16 % 0x4000)));
}
