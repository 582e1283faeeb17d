//! Seeds of a drawn schedule.

use crate::inputs::rng::Rng;

/// The seeds at which products and sums turn.
pub const CORNERS: [u32; 4] = [0, 1, 1 << 31, u32::MAX];

/// Of a seed up to 2,580 the first product fits 32 bits.
const SMALL: usize = 2_600;

/// Any seed: every eighth a corner, and every fourth small, so that the first product fits or just passes.
pub fn any(rng: &mut Rng) -> u32 {
    match rng.below(8) {
        0 => rng.pick(&CORNERS),
        1 | 2 => rng.below(SMALL) as u32,
        _ => rng.bits() as u32,
    }
}
