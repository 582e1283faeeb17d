//! The page made for speed: digits written one by one.

use crate::page::laid;
use crate::refusal::Refusal;
use crate::status::Status;

/// A line of a page, with its line feed.
const LINE: usize = 102;
/// A cell's column, with the space before it.
const CELL: usize = 11;

/// As [`crate::page()`].
pub fn page(table: &[u8], schedule: &[u8], buffer: &mut [u8]) -> Result<usize, Refusal> {
    laid(table, schedule, buffer, |table, site, buffer| {
        let (lines, _) = buffer.as_chunks_mut::<LINE>();
        let scripts = table.scripts();
        for (actor, line) in lines.iter_mut().enumerate().take(table.actors()) {
            let status = Status::of(scripts[actor], site, actor).word().as_bytes();
            let record = site.actor(actor);
            line.fill(b' ');
            put(&mut line[..1], actor as u32);
            put(&mut line[2..4], record.position as u32);
            line[5..5 + status.len()].copy_from_slice(status);
            let (columns, feed) = line[13..].as_chunks_mut::<CELL>();
            for (column, cell) in columns.iter_mut().zip(record.cells) {
                put(column, cell);
            }
            feed[0] = b'\n';
        }
        LINE * table.actors()
    })
}

/// Writes a number's digits at the end of a column.
fn put(column: &mut [u8], mut number: u32) {
    for place in column.iter_mut().rev() {
        *place = b'0' + (number % 10) as u8;
        number /= 10;
        if number == 0 {
            return;
        }
    }
}
