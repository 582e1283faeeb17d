//! The run: steps a schedule and reports the state it leads to.

use crate::follow::{Schedule, follow};
use crate::reader::check;
use crate::refusal::{Reason, Refusal};
use crate::report::{self, REPORT_ROOM};
use crate::site::Site;

/// Writes the report of the state that a schedule leads to, and gives its length: refusal 10, then
/// 1 to 9, then 11 to 13 and 21. A refusal writes nothing.
pub fn run(table: &[u8], schedule: &[u8], buffer: &mut [u8]) -> Result<usize, Refusal> {
    if buffer.len() < REPORT_ROOM {
        return Err(Refusal::new(Reason::ReportRoom, 0));
    }
    let table = check(table)?;
    let mut site = Site::fresh();
    follow(&table, Schedule::First, schedule, &mut site, |_, _| {})?;
    Ok(report::write(&table, &site, buffer))
}
