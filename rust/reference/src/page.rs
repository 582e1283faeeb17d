//! The page: steps a schedule and lays out the state it leads to, a line for each actor.

use crate::follow::{Schedule, follow};
use crate::reader::check;
use crate::refusal::{Reason, Refusal};
use crate::site::Site;
use crate::status::Status;
use crate::table::Table;
use std::io::{self, Write};

/// No page is longer.
pub const PAGE_ROOM: usize = 816;

/// Lays out the state that a schedule leads to, and gives the page's length: refusal 20, then 1 to 9,
/// then 11 to 13 and 21. A refusal writes nothing.
pub fn page(table: &[u8], schedule: &[u8], buffer: &mut [u8]) -> Result<usize, Refusal> {
    laid(table, schedule, buffer, |table, site, mut rest| {
        let lent = rest.len();
        lines(table, site, &mut rest).expect("there is room for eight lines");
        lent - rest.len()
    })
}

/// What `lay` gives for the state that a schedule leads to, or the refusal.
#[inline(always)]
pub(crate) fn laid(
    table: &[u8],
    schedule: &[u8],
    buffer: &mut [u8],
    lay: impl FnOnce(&Table, &Site, &mut [u8]) -> usize,
) -> Result<usize, Refusal> {
    if buffer.len() < PAGE_ROOM {
        return Err(Refusal::new(Reason::PageRoom, 0));
    }
    let table = check(table)?;
    let mut site = Site::fresh();
    follow(&table, Schedule::First, schedule, &mut site, |_, _| {})?;
    Ok(lay(&table, &site, buffer))
}

/// A line for each actor: actor, position, status and cells.
fn lines(table: &Table, site: &Site, out: &mut impl Write) -> io::Result<()> {
    let scripts = table.scripts();
    for (actor, script) in scripts.iter().enumerate().take(table.actors()) {
        let record = site.actor(actor);
        let status = Status::of(script, site, actor).word();
        write!(out, "{actor} {:>2} {status:<8}", record.position)?;
        for cell in record.cells {
            write!(out, " {cell:>10}")?;
        }
        writeln!(out)?;
    }
    Ok(())
}
