//! Whether two recordings are one and the same run as far as both go.

use crate::fields::Fields;
use crate::refusal::Refusal;
use crate::same::Same;

unsafe extern "C" {
    fn order_prefix(
        table: *const u8,
        table_length: usize,
        first: *const u8,
        first_length: usize,
        second: *const u8,
        second_length: usize,
    ) -> Fields<2>;
}

/// The answer of [`same`](crate::same()) about two recordings, the longer of which is held to the length of
/// the shorter; entries keep their indices. [`remainder`](crate::remainder()) is what is left of it.
///
/// Refusals: 1 to 9, then 11 to 13 and 21 for the first part, then 14 to 16 and 22 for the second. Entries
/// of the remainder are not stepped.
///
/// ```
/// // Two actors with a Set each.
/// let set = [0, 0, 0, 0, 7, 0, 0, 0];
/// let table = [&[1, 2, 0, 0, 12, 0, 1, 0, 20, 0, 1, 0][..], &set, &set].concat();
/// let answer = order_engine::prefix(&table, &[0, 1], &[1, 0, 255]).unwrap();
/// assert_eq!((answer.is_same(), answer.pairs), (true, 1));
/// assert!(order_engine::same(&table, &[0, 1], &[1, 0, 255]).is_err());
/// ```
pub fn prefix(table: &[u8], first: &[u8], second: &[u8]) -> Result<Same, Refusal> {
    Same::of(fields(table, first, second), first)
}

/// The answer as C has it: 0 different, 1 same; and how many pairs were compared.
pub fn fields(table: &[u8], first: &[u8], second: &[u8]) -> Fields<2> {
    // SAFETY: pointers and lengths are those of slices that are borrowed throughout the call, which
    // only reads them.
    unsafe {
        order_prefix(
            table.as_ptr(),
            table.len(),
            first.as_ptr(),
            first.len(),
            second.as_ptr(),
            second.len(),
        )
    }
}
