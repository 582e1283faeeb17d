//! A table that the reader accepted.

use crate::action::Action;
use tables::Kind;

/// An accepted table, seen in its bytes. Only [`crate::check`] makes one.
#[derive(Clone, Copy, Debug)]
pub struct Table<'a> {
    bytes: &'a [u8],
}

impl<'a> Table<'a> {
    /// The view of bytes that the reader accepted.
    pub(crate) fn of_accepted(bytes: &'a [u8]) -> Self {
        Self { bytes }
    }

    /// The table's bytes.
    pub fn bytes(&self) -> &'a [u8] {
        self.bytes
    }

    /// How many actors there are, 1 to 8.
    pub fn actors(&self) -> usize {
        usize::from(self.bytes[1])
    }

    /// How many mailboxes there are, 0 to 8.
    pub fn mailboxes(&self) -> usize {
        usize::from(self.bytes[2])
    }

    /// How many mutexes there are, 0 to 8.
    pub fn mutexes(&self) -> usize {
        usize::from(self.bytes[3])
    }

    /// How many actions `actor` has, 0 to 32. Panics where there is no such actor.
    pub fn actions(&self, actor: usize) -> usize {
        self.entry(actor).1
    }

    /// Action `index` of `actor`. Panics where there is none.
    pub fn action(&self, actor: usize, index: usize) -> Action {
        Action::decode(self.script(actor)[index])
    }

    /// The kind of action `index` of `actor`. Panics where there is none.
    pub fn kind(&self, actor: usize, index: usize) -> Kind {
        let [code, ..] = self.script(actor)[index];
        Kind::of(code).expect("an accepted table has no other number")
    }

    /// Each actor's actions, as bytes; none for an actor that there is not.
    pub(crate) fn scripts(&self) -> [&'a [[u8; 8]]; 8] {
        std::array::from_fn(|actor| match actor < self.actors() {
            true => self.script(actor),
            false => &[],
        })
    }

    /// The actions of `actor`, as bytes. Panics where there is no such actor.
    pub(crate) fn script(&self, actor: usize) -> &'a [[u8; 8]] {
        let (offset, count) = self.entry(actor);
        let (own, _) = self.bytes[offset..].as_chunks::<8>();
        &own[..count]
    }

    /// The directory's entry for `actor`: offset and number of actions.
    fn entry(&self, actor: usize) -> (usize, usize) {
        assert!(actor < self.actors(), "there is no actor {actor}");
        let (entries, _) = self.bytes[4..].as_chunks::<4>();
        let [low, high, count, _] = entries[actor];
        let offset = u16::from_le_bytes([low, high]);
        (usize::from(offset), usize::from(count))
    }
}
