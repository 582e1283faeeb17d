//! What a schedule leads to.

use crate::fields::Fields;
use crate::refusal::Refusal;
use crate::report::Report;

unsafe extern "C" {
    fn order_run(
        table: *const u8,
        table_length: usize,
        schedule: *const u8,
        schedule_length: usize,
        report: *mut u8,
        report_length: usize,
    ) -> Fields<1>;
}

/// The bytes that [`run`] wants lent. No report is longer.
pub const REPORT_ROOM: usize = 4_514;

/// Steps `schedule` from a fresh site and writes the report of the state it leads to into `buffer`,
/// which must have at least [`REPORT_ROOM`] bytes. Answers with a view of the report; bytes after it
/// keep what they held.
///
/// Refusals: 10, then 1 to 9, then 11 to 13 and 21. A refused run writes nothing.
pub fn run<'a>(table: &[u8], schedule: &[u8], buffer: &'a mut [u8]) -> Result<Report<'a>, Refusal> {
    let [length] = fields(table, schedule, buffer).accepted()?;
    Ok(Report::of_run(table, &buffer[..length as usize]))
}

/// The answer as C has it: the report's length.
pub fn fields(table: &[u8], schedule: &[u8], buffer: &mut [u8]) -> Fields<1> {
    // SAFETY: pointers and lengths are those of slices that are borrowed throughout the call, the
    // buffer mutably. The call reads the first two and writes inside the third.
    unsafe {
        order_run(
            table.as_ptr(),
            table.len(),
            schedule.as_ptr(),
            schedule.len(),
            buffer.as_mut_ptr(),
            buffer.len(),
        )
    }
}
