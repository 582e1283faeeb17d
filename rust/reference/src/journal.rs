//! The journal: what Notes have written, in the order in which they ran.

use crate::name::Name;

/// An entry: the step that wrote it and the value that its cell held then.
#[derive(Clone, Copy, PartialEq, Eq, Debug)]
pub struct Entry {
    /// The step.
    pub step: Name,
    /// The value.
    pub value: u32,
}

impl Entry {
    /// The six bytes that a report has of it.
    pub fn bytes(&self) -> [u8; 6] {
        let [actor, action] = self.step.bytes();
        let [v0, v1, v2, v3] = self.value.to_le_bytes();
        [actor, action, v0, v1, v2, v3]
    }
}

/// What was noted, oldest first. Holds room for the largest table: a Note runs once at most.
#[derive(Clone, Debug)]
pub struct Journal {
    count: usize,
    steps: [Name; Name::COUNT],
    values: [u32; Name::COUNT],
}

impl Journal {
    /// A journal with nothing in it.
    pub fn empty() -> Self {
        Self {
            count: 0,
            steps: [Name::default(); Name::COUNT],
            values: [0; Name::COUNT],
        }
    }

    /// The entries, oldest first.
    pub fn entries(&self) -> impl ExactSizeIterator<Item = Entry> + '_ {
        (0..self.count).map(|place| Entry {
            step: self.steps[place],
            value: self.values[place],
        })
    }

    /// Adds an entry at the end.
    pub fn add(&mut self, entry: Entry) {
        self.steps[self.count] = entry.step;
        self.values[self.count] = entry.value;
        self.count += 1;
    }
}
