//! Memory in which each lent buffer lies at an inaccessible page, and what is only to be read
//! cannot be written.

use crate::harness::slots::{Input, Lent, Memory, NUMBERS, READ};
use guard::{Access, Edge, Region};

/// Guarded memory.
pub struct Guarded {
    edge: Edge,
    read: [Region<u8>; READ],
    numbers: [u32; NUMBERS],
    bytes: Region<u8>,
    entries: Region<u16>,
}

impl Guarded {
    /// Memory whose buffers lie at this edge.
    pub fn new(edge: Edge) -> Self {
        Self {
            edge,
            read: Default::default(),
            numbers: Default::default(),
            bytes: Region::default(),
            entries: Region::default(),
        }
    }
}

impl Memory for Guarded {
    fn hold(&mut self, input: &Input) {
        for (own, given) in self.read.iter_mut().zip(&input.read) {
            own.hold(given, self.edge, Access::Read);
        }
        self.numbers = input.numbers;
        self.bytes.hold(&input.bytes, self.edge, Access::Write);
        self.entries.hold(&input.entries, self.edge, Access::Write);
    }

    fn lent(&mut self) -> Lent<'_> {
        Lent {
            read: self.read.each_ref().map(Region::lent),
            numbers: self.numbers,
            bytes: self.bytes.lent_mut(),
            entries: self.entries.lent_mut(),
        }
    }
}
