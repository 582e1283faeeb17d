//! Whether a file is a task table.

use crate::fields::Fields;
use crate::refusal::Refusal;

unsafe extern "C" {
    fn order_check(table: *const u8, length: usize) -> Fields<0>;
}

/// Reads a table: accepted, or the first of refusals 1 to 9.
pub fn check(table: &[u8]) -> Result<(), Refusal> {
    let [] = fields(table).accepted()?;
    Ok(())
}

/// The answer as C has it: no values.
pub fn fields(table: &[u8]) -> Fields<0> {
    // SAFETY: pointer and length are those of a slice that is borrowed throughout the call, which
    // only reads it and asks nothing else of its caller.
    unsafe { order_check(table.as_ptr(), table.len()) }
}
