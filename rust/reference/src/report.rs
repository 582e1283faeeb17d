//! The state report: the state as bytes.

use crate::site::Site;
use crate::table::Table;

/// No report is longer.
pub const REPORT_ROOM: usize = 4_514;

/// Writes the report of a state and gives its length. Later bytes keep what they hold.
///
/// Panics where `buffer` has under [`REPORT_ROOM`] bytes and the report does not fit.
pub fn write(table: &Table, site: &Site, buffer: &mut [u8]) -> usize {
    let mut writer = Writer { buffer, length: 0 };
    for actor in 0..table.actors() {
        let record = site.actor(actor);
        writer.put([record.position as u8]);
        for cell in record.cells {
            writer.put(cell.to_le_bytes());
        }
    }
    for actor in 0..table.actors() {
        for communication in site.communications(actor, table.actions(actor)) {
            writer.put(communication.bytes());
        }
    }
    for mailbox in 0..table.mailboxes() {
        let queue = site.mailbox(mailbox);
        writer.put((queue.len() as u16).to_le_bytes());
        for name in queue {
            writer.put(name.bytes());
        }
    }
    for mutex in 0..table.mutexes() {
        let queue = site.mutex(mutex);
        writer.put([queue.len() as u8]);
        for queued in queue {
            writer.put([queued.actor, queued.depth]);
        }
    }
    let journal = site.journal();
    writer.put((journal.len() as u16).to_le_bytes());
    for entry in journal {
        writer.put(entry.bytes());
    }
    writer.length
}

/// A buffer and how much of it is written.
struct Writer<'a> {
    buffer: &'a mut [u8],
    length: usize,
}

impl Writer<'_> {
    fn put<const N: usize>(&mut self, bytes: [u8; N]) {
        self.buffer[self.length..self.length + N].copy_from_slice(&bytes);
        self.length += N;
    }
}
