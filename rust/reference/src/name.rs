//! A step's name: its actor and action.

/// A step's name, in one byte. It does not depend on when the step ran.
#[derive(Clone, Copy, PartialEq, Eq, PartialOrd, Ord, Hash, Debug, Default)]
pub struct Name(u8);

impl Name {
    /// How many names there are: eight actors with 32 actions each.
    pub const COUNT: usize = 256;

    /// The name of action `action`, under 32, of actor `actor`, under 8.
    pub const fn new(actor: usize, action: usize) -> Self {
        debug_assert!(actor < 8 && action < 32);
        Self((actor * 32 + action) as u8)
    }

    /// The actor.
    pub const fn actor(self) -> usize {
        (self.0 / 32) as usize
    }

    /// The action, numbered within its actor.
    pub const fn action(self) -> usize {
        (self.0 % 32) as usize
    }

    /// The name as an index under [`Name::COUNT`].
    pub const fn index(self) -> usize {
        self.0 as usize
    }

    /// Actor and action as a report has them.
    pub const fn bytes(self) -> [u8; 2] {
        [self.0 / 32, self.0 % 32]
    }
}
