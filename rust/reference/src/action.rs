//! An action taken apart.

use tables::Kind;

/// One to four numbers, of actions or of mutexes.
#[derive(Clone, Copy, PartialEq, Eq, Debug)]
pub struct List {
    length: u8,
    numbers: [u8; 4],
}

impl List {
    /// The numbers, in the table's order.
    pub fn numbers(&self) -> &[u8] {
        &self.numbers[..usize::from(self.length)]
    }

    /// The first place, from 1, whose number fits, or 0.
    pub fn place(&self, mut fits: impl FnMut(u8) -> bool) -> usize {
        for (index, &number) in self.numbers().iter().enumerate() {
            if fits(number) {
                return index + 1;
            }
        }
        0
    }
}

/// An action of an accepted table. Cells, mailboxes, mutexes and listed numbers exist.
#[derive(Clone, Copy, PartialEq, Eq, Debug)]
#[allow(missing_docs)]
pub enum Action {
    /// `cell` becomes `value`.
    Set { cell: u8, value: u32 },
    /// `cell` becomes its sum with `other`, which must not pass 4,294,967,295.
    Add { cell: u8, other: u8 },
    /// `cell` becomes the smaller of itself and `other`.
    Lesser { cell: u8, other: u8 },
    /// Sends what `cell` holds to `mailbox`.
    Send { mailbox: u8, cell: u8 },
    /// Asks `mailbox` for a value, meant for `cell`.
    Receive { mailbox: u8, cell: u8 },
    /// Writes the first done place of `actions`, or 0, into `result`.
    TestAny { result: u8, actions: List },
    /// The same, once one is done.
    WaitAny { result: u8, actions: List },
    /// Joins the queue of `mutex`, or adds 1 to its depth there.
    Lock { mutex: u8 },
    /// Takes 1 off its depth in the queue of `mutex`, and leaves it at 0.
    Unlock { mutex: u8 },
    /// Writes the first owned place of `mutexes`, or 0, into `result`.
    MutexTest { result: u8, mutexes: List },
    /// The same, once one is owned.
    MutexWait { result: u8, mutexes: List },
    /// Adds its name and what `cell` holds to the journal.
    Note { cell: u8 },
}

impl Action {
    /// The action that eight bytes of an accepted table give. Panics where the kind is unknown.
    #[inline(always)]
    pub fn decode(bytes: [u8; 8]) -> Self {
        let [code, p, q, z, numbers @ ..] = bytes;
        let list = List { length: z, numbers };
        let Some(kind) = Kind::of(code) else {
            unreachable!("an accepted table has no kind {code}");
        };
        match kind {
            Kind::Set => Self::Set {
                cell: p,
                value: u32::from_le_bytes(numbers),
            },
            Kind::Add => Self::Add { cell: p, other: q },
            Kind::Lesser => Self::Lesser { cell: p, other: q },
            Kind::Send => Self::Send {
                mailbox: p,
                cell: q,
            },
            Kind::Receive => Self::Receive {
                mailbox: p,
                cell: q,
            },
            Kind::TestAny => Self::TestAny {
                result: p,
                actions: list,
            },
            Kind::WaitAny => Self::WaitAny {
                result: p,
                actions: list,
            },
            Kind::Lock => Self::Lock { mutex: p },
            Kind::Unlock => Self::Unlock { mutex: p },
            Kind::MutexTest => Self::MutexTest {
                result: p,
                mutexes: list,
            },
            Kind::MutexWait => Self::MutexWait {
                result: p,
                mutexes: list,
            },
            Kind::Note => Self::Note { cell: p },
        }
    }
}
