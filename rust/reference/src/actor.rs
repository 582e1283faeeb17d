//! An actor's record: its position, its eight cells, and the steps that touch nothing else.

/// An actor's record.
#[derive(Clone, Copy, PartialEq, Eq, Debug, Default)]
pub struct Actor {
    /// The number of the next action.
    pub position: usize,
    /// The cells.
    pub cells: [u32; 8],
}

impl Actor {
    /// What a cell holds.
    pub fn cell(&self, cell: u8) -> u32 {
        self.cells[usize::from(cell)]
    }

    /// Set: `cell` becomes `value`.
    pub fn set(&mut self, cell: u8, value: u32) {
        self.cells[usize::from(cell)] = value;
    }

    /// Add: the sum of `cell` and `other`; none where it passes 4,294,967,295.
    pub fn sum(&self, cell: u8, other: u8) -> Option<u32> {
        self.cell(cell).checked_add(self.cell(other))
    }

    /// Lesser: `cell` becomes the smaller of itself and `other`, unsigned.
    pub fn lesser(&mut self, cell: u8, other: u8) {
        self.set(cell, self.cell(cell).min(self.cell(other)));
    }
}
