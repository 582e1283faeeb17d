//! What an actor's next step is: to be taken, to wait, or over for good.

/// What an actor's next step is in the state before it.
#[derive(Clone, Copy, PartialEq, Eq, Debug)]
pub enum Next {
    /// It can be taken.
    Taken {
        /// What it finds: an Add its sum, a Test or Wait its place, from 1, or 0; any other 0.
        finds: u32,
    },
    /// A Wait that finds nothing yet.
    Waits,
    /// An Add whose sum passes 4,294,967,295. Only its own actor's steps change its cells, so that this
    /// stays so.
    Over,
}

impl Next {
    /// A step that finds this and waits for nothing.
    pub(crate) fn finding(finds: usize) -> Self {
        let finds = finds as u32;
        Self::Taken { finds }
    }

    /// A step that is taken once it finds a place.
    pub(crate) fn at_place(place: usize) -> Self {
        match place {
            0 => Self::Waits,
            place => Self::finding(place),
        }
    }

    /// An Add with this sum; none where it runs over.
    pub(crate) fn of_sum(sum: Option<u32>) -> Self {
        match sum {
            Some(finds) => Self::Taken { finds },
            None => Self::Over,
        }
    }

    /// Whether the step can be taken.
    pub const fn is_taken(self) -> bool {
        matches!(self, Self::Taken { .. })
    }
}
