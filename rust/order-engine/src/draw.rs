//! A schedule that a seed determines.

use crate::fields::Fields;
use crate::refusal::Refusal;

unsafe extern "C" {
    fn order_draw(
        table: *const u8,
        table_length: usize,
        seed: u32,
        schedule: *mut u8,
        schedule_length: usize,
    ) -> Fields<1>;
}

/// The entries that the longest accepted schedule has, and that [`draw`] wants lent.
pub const SCHEDULE_MOST: usize = 256;

/// Draws a schedule from a fresh site until nobody is ready, and writes it into `buffer`, which must have
/// at least [`SCHEDULE_MOST`] entries whatever the table. Answers with the schedule; entries after it keep
/// what they held. It is an accepted one and ends finished or stuck, and `seed` determines it: x begins as
/// the seed; before each step x becomes 1664525·x + 1013904223 modulo 2^32, and of the ready actors, in
/// ascending order, the one with the rank (x div 65536) modulo their number, counted from 0, is stepped.
///
/// Refusals: 23, then 1 to 9. A refused draw writes nothing.
///
/// ```
/// // Two actors with a Set each: the first draw from 0 takes rank 15470 modulo 2.
/// let set = [0, 0, 0, 0, 7, 0, 0, 0];
/// let table = [&[1, 2, 0, 0, 12, 0, 1, 0, 20, 0, 1, 0][..], &set, &set].concat();
/// let mut buffer = [9; order_engine::SCHEDULE_MOST];
/// assert_eq!(order_engine::draw(&table, 0, &mut buffer), Ok(&[0, 1][..]));
/// assert_eq!(buffer[2..], [9; 254]);
/// ```
pub fn draw<'a>(table: &[u8], seed: u32, buffer: &'a mut [u8]) -> Result<&'a [u8], Refusal> {
    let [length] = fields(table, seed, buffer).accepted()?;
    Ok(&buffer[..length as usize])
}

/// The answer as C has it: the schedule's length.
pub fn fields(table: &[u8], seed: u32, buffer: &mut [u8]) -> Fields<1> {
    // SAFETY: pointers and lengths are those of slices that are borrowed throughout the call, the
    // buffer mutably. The call reads the first and writes inside the second.
    unsafe {
        order_draw(
            table.as_ptr(),
            table.len(),
            seed,
            buffer.as_mut_ptr(),
            buffer.len(),
        )
    }
}
