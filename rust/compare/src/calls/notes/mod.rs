//! Notes, for the calls that step schedules or make one: what must have been met.

pub mod exchanges;
pub mod journal;

use reference::Table;
use tables::Kind;

/// Whether a table has Notes.
fn has_notes(table: &Table) -> bool {
    let mut actors = 0..table.actors();
    let is_note = |actor, index| table.kind(actor, index) == Kind::Note;
    actors.any(|actor| (0..table.actions(actor)).any(|index| is_note(actor, index)))
}
