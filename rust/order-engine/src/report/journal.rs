//! The last section of a report.

use crate::step::StepName;

/// Bytes of an entry: a step's name and a value.
const ENTRY: usize = 6;

/// The journal: what Notes have written.
///
/// ```
/// // One actor that sets cell 2 to 7 and notes it.
/// let (set, note) = ([0, 2, 0, 0, 7, 0, 0, 0], [11, 2, 0, 0, 0, 0, 0, 0]);
/// let table = [&[1, 1, 0, 0, 8, 0, 2, 0][..], &set, &note].concat();
/// let mut buffer = [0; order_engine::REPORT_ROOM];
/// let report = order_engine::run(&table, &[0, 0], &mut buffer).unwrap();
/// let entry = report.journal().entries().next().unwrap();
/// assert_eq!((entry.step.to_string(), entry.value), ("0.1".to_owned(), 7));
/// ```
#[derive(Clone, Copy, PartialEq, Eq, Hash, Debug)]
pub struct Journal<'a> {
    entries: &'a [[u8; ENTRY]],
}

/// An entry of the journal.
#[derive(Clone, Copy, PartialEq, Eq, Hash, Debug)]
#[non_exhaustive]
pub struct Entry {
    /// The Note that wrote it.
    pub step: StepName,
    /// What the Note's cell held when it ran.
    pub value: u32,
}

impl<'a> Journal<'a> {
    /// The journal that is all of `rest`.
    pub(super) fn of(rest: &'a [u8]) -> Self {
        let length = usize::from(u16::from_le_bytes([rest[0], rest[1]]));
        let (entries, after) = rest[2..].split_at(ENTRY * length);
        if !after.is_empty() {
            unreachable!("order_run reported {} bytes after the journal", after.len());
        }
        Self {
            entries: entries.as_chunks().0,
        }
    }

    /// What was written, the oldest first.
    pub fn entries(&self) -> impl ExactSizeIterator<Item = Entry> + use<'a> {
        let entries = self.entries.iter();
        entries.map(|&[actor, action, a, b, c, d]| Entry {
            step: StepName::new(actor, action),
            value: u32::from_le_bytes([a, b, c, d]),
        })
    }
}
