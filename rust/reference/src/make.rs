//! Schedules that are made: somebody ready is chosen and stepped until nobody is ready.

use crate::reader::check;
use crate::refusal::{Reason, Refusal};
use crate::site::Site;
use crate::status::Status;
use crate::table::Table;

/// No accepted schedule is longer.
pub const SCHEDULE_MOST: usize = 256;

/// Makes a schedule from a fresh site, and gives its length: refusal 23, then 1 to 9. A refusal writes
/// nothing. `choose` names one of the ready actors, which it is shown in ascending order.
pub(crate) fn make(
    table: &[u8],
    buffer: &mut [u8],
    mut choose: impl FnMut(&[usize]) -> usize,
) -> Result<usize, Refusal> {
    let table = room_and_table(table, buffer)?;
    let mut site = Site::fresh();
    let mut length = 0;
    loop {
        let is_ready = |&actor: &usize| Status::in_state(&table, &site, actor) == Status::Ready;
        let ready: Vec<usize> = (0..table.actors()).filter(is_ready).collect();
        if ready.is_empty() {
            return Ok(length);
        }
        let actor = choose(&ready);
        let action = table.action(actor, site.actor(actor).position);
        site.step(actor, &action);
        buffer[length] = actor as u8;
        length += 1;
    }
}

/// The table, if there is room for a schedule and the table is accepted.
pub(crate) fn room_and_table<'a>(table: &'a [u8], buffer: &[u8]) -> Result<Table<'a>, Refusal> {
    if buffer.len() < SCHEDULE_MOST {
        return Err(Refusal::new(Reason::ScheduleRoom, 0));
    }
    check(table)
}
