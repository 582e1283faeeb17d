//! By which exchanges one schedule becomes another.

use crate::fields::Fields;
use crate::refusal::Refusal;

unsafe extern "C" {
    fn order_route(
        table: *const u8,
        table_length: usize,
        first: *const u8,
        first_length: usize,
        second: *const u8,
        second_length: usize,
        route: *mut u16,
        route_length: usize,
    ) -> Fields<1>;
}

/// The entries that [`route`] wants lent for schedules of `length` entries.
pub const fn route_room(length: usize) -> usize {
    length * length.saturating_sub(1) / 2
}

/// Writes a route from schedule `first` to `second`: positions k, each exchanging entries k and
/// k + 1 of what the ones before it left. `buffer` must have at least [`route_room`] entries. Answers
/// with the route, its first entries; those after it keep what they held.
///
/// Refusals: as [`same`](crate::same()), then 19 where the schedules are different, then 18. A
/// refused call writes nothing.
pub fn route<'a>(
    table: &[u8],
    first: &[u8],
    second: &[u8],
    buffer: &'a mut [u16],
) -> Result<&'a [u16], Refusal> {
    let [length] = fields(table, first, second, buffer).accepted()?;
    Ok(&buffer[..length as usize])
}

/// The answer as C has it: the route's length.
pub fn fields(table: &[u8], first: &[u8], second: &[u8], buffer: &mut [u16]) -> Fields<1> {
    // SAFETY: pointers and lengths are those of slices that are borrowed throughout the call, the
    // buffer mutably. The call reads the first three and writes inside the fourth, whose length
    // counts entries.
    unsafe {
        order_route(
            table.as_ptr(),
            table.len(),
            first.as_ptr(),
            first.len(),
            second.as_ptr(),
            second.len(),
            buffer.as_mut_ptr(),
            buffer.len(),
        )
    }
}
