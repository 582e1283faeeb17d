//! What a call answered: every field of its C struct.

use order_engine::Fields;
use reference::Refusal;
use std::fmt;

/// The most values that a C struct has after refusal and position.
const MOST: usize = 3;

/// All fields of an answer; those that the call's struct lacks are 0.
#[derive(Clone, Copy, PartialEq, Eq, Debug)]
pub struct Answer {
    /// 0 for accepted, otherwise the refusal's number.
    pub refusal: u32,
    /// The refusal's position.
    pub position: u32,
    /// The further fields.
    pub values: [u32; MOST],
}

impl Answer {
    /// Whether the call accepted.
    pub fn accepted(&self) -> bool {
        self.refusal == 0
    }
}

/// The proved engine's answer, as it is.
impl<const N: usize> From<Fields<N>> for Answer {
    fn from(fields: Fields<N>) -> Self {
        Self {
            refusal: fields.refusal,
            position: fields.position,
            values: padded(fields.values),
        }
    }
}

/// The reference's answer, as the C struct has to have it.
impl<const N: usize> From<Result<[u32; N], Refusal>> for Answer {
    fn from(answer: Result<[u32; N], Refusal>) -> Self {
        match answer {
            Ok(values) => Self {
                refusal: 0,
                position: 0,
                values: padded(values),
            },
            Err(refusal) => Self {
                refusal: refusal.number(),
                position: refusal.position,
                values: [0; MOST],
            },
        }
    }
}

fn padded<const N: usize>(values: [u32; N]) -> [u32; MOST] {
    std::array::from_fn(|at| values.get(at).copied().unwrap_or(0))
}

impl fmt::Display for Answer {
    fn fmt(&self, f: &mut fmt::Formatter<'_>) -> fmt::Result {
        match self.refusal {
            0 => write!(f, "accepted, values {:?}", self.values),
            number => write!(f, "refused {number} at {}", self.position),
        }?;
        if !self.accepted() && self.values != [0; MOST] {
            write!(f, " with values {:?} that have to be 0", self.values)?;
        }
        if self.accepted() && self.position != 0 {
            write!(f, " with position {} that has to be 0", self.position)?;
        }
        Ok(())
    }
}
