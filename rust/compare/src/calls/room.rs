//! The room lent to a call that wants a fixed number of bytes: lengths around that number, and the refusal
//! of fewer before any other.

use crate::harness::asked::Asked;
use crate::harness::demands::Demands;
use crate::harness::slots::Input;
use crate::harness::tally::Tally;
use reference::{Reason, Refusal};

/// The room that a call wants.
pub struct Room {
    /// The least that is enough.
    pub least: usize,
    /// The refusal of less.
    pub refusal: Reason,
}

impl Room {
    /// What must have been met of a call that then gives these refusals; each length so often.
    pub fn demands<'a>(&self, demands: Demands<'a>, then: &[&[Reason]], least: u64) -> Demands<'a> {
        let lent = self.lengths().map(lent);
        let refused: Vec<String> = then
            .iter()
            .copied()
            .flatten()
            .map(|&reason| self.before(reason))
            .collect();
        demands
            .notes(&lent, least)
            .notes(&[self.more(), self.fits()], least)
            .notes(&refused, 20)
    }

    /// Notes how much was lent and, where that was too little, what was then not looked at: `again` asks
    /// the reference with room enough.
    pub fn note(
        &self,
        tally: &mut Tally,
        asked: &Asked,
        again: impl FnOnce(&Input, &mut [u8]) -> Result<usize, Refusal>,
    ) {
        let length = asked.input.bytes.len();
        if self.lengths().contains(&length) {
            tally.note(&lent(length));
        } else if length > self.least {
            tally.note(&self.more());
        }
        if asked.reference.refusal != self.refusal.number() {
            return;
        }
        match again(asked.input, &mut vec![0; self.least]) {
            Ok(wanted) if wanted <= length => tally.note(&self.fits()),
            Ok(_) => {}
            Err(refusal) => tally.note(&self.before(refusal.reason)),
        }
    }

    /// Lengths that must have been lent.
    fn lengths(&self) -> [usize; 4] {
        [0, self.least - 1, self.least, self.least + 1]
    }

    fn more(&self) -> String {
        format!("over {} bytes lent", self.least + 1)
    }

    fn fits(&self) -> String {
        format!("refused {} where it would fit", self.refusal.number())
    }

    fn before(&self, reason: Reason) -> String {
        format!(
            "refused {} before {}",
            self.refusal.number(),
            reason.number()
        )
    }
}

fn lent(length: usize) -> String {
    format!("{length} bytes lent")
}
