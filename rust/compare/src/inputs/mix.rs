//! How often each kind of action comes in a made table.

use crate::inputs::rng::Rng;
use tables::Kind::{self, *};

/// A weight for each kind, by number. Set has one, so that some kind is always possible.
#[derive(Clone, Copy, Debug)]
pub struct Mix([u8; Kind::COUNT]);

impl Mix {
    /// All kinds equally often.
    pub const EVEN: Self = Self([1; Kind::COUNT]);
    /// Mostly communications and lists of them.
    pub const MAIL: Self = Self::of(&[
        (2, &[Set]),
        (1, &[Add, Lesser, Note]),
        (5, &[Send, Receive]),
        (4, &[TestAny]),
        (2, &[WaitAny]),
    ]);
    /// Mostly mutexes and lists of them.
    pub const MUTEXES: Self = Self::of(&[
        (1, &[Set, Note]),
        (6, &[Lock]),
        (4, &[Unlock]),
        (3, &[MutexTest, MutexWait]),
    ]);
    /// Both, and cells that differ.
    pub const CONTENDED: Self = Self::of(&[
        (3, &[Set]),
        (1, &[Add, Lesser]),
        (5, &[Send, Receive]),
        (3, &[TestAny]),
        (2, &[WaitAny]),
        (4, &[Lock]),
        (3, &[Unlock]),
        (2, &[MutexTest, MutexWait, Note]),
    ]);
    /// Hardly any lists, so that queues grow.
    pub const QUEUES: Self = Self::of(&[
        (2, &[Set]),
        (9, &[Send]),
        (3, &[Receive]),
        (1, &[TestAny, Unlock, Note]),
        (5, &[Lock]),
    ]);
    /// Mostly waits.
    pub const WAITS: Self = Self::of(&[
        (1, &[Set, Unlock, Note]),
        (2, &[Send, Receive]),
        (3, &[WaitAny, Lock, MutexWait]),
    ]);
    /// Cells that differ, and many Notes of them.
    pub const NOTES: Self = Self::of(&[
        (3, &[Set]),
        (1, &[Add, Lesser, TestAny]),
        (2, &[Send, Receive, WaitAny]),
        (6, &[Note]),
    ]);

    /// All of them, the common ones more than once.
    pub const ALL: [Self; 9] = [
        Self::EVEN,
        Self::MAIL,
        Self::MAIL,
        Self::MUTEXES,
        Self::CONTENDED,
        Self::CONTENDED,
        Self::QUEUES,
        Self::WAITS,
        Self::NOTES,
    ];

    /// These kinds with their weights, and no other.
    const fn of(weights: &[(u8, &[Kind])]) -> Self {
        let mut mix = [0; Kind::COUNT];
        let mut at = 0;
        while at < weights.len() {
            let (weight, kinds) = weights[at];
            let mut kind = 0;
            while kind < kinds.len() {
                mix[kinds[kind] as usize] = weight;
                kind += 1;
            }
            at += 1;
        }
        Self(mix)
    }

    /// The same without the kinds whose numbers are greater than that of `last`.
    pub fn up_to(mut self, last: Kind) -> Self {
        self.0[last as usize + 1..].fill(0);
        self
    }

    /// The same without a kind.
    pub fn without(mut self, kind: Kind) -> Self {
        self.0[kind as usize] = 0;
        self
    }

    /// A kind, drawn by weight.
    pub fn kind(&self, rng: &mut Rng) -> Kind {
        let sum = self.0.iter().map(|&weight| usize::from(weight)).sum();
        let mut at = rng.below(sum);
        let mut kind = 0;
        while at >= usize::from(self.0[kind]) {
            at -= usize::from(self.0[kind]);
            kind += 1;
        }
        Kind::ALL[kind]
    }
}
