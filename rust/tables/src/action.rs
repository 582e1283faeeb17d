//! An action's eight bytes: kind, p, q, z, then b4 to b7.

use crate::kind::Kind;

/// An action's bytes, as they stand in a table.
pub type Action = [u8; 8];

/// The most numbers in a list.
pub const LONGEST_LIST: usize = 4;

/// An action of `kind` that has only its first field.
pub const fn lone(kind: Kind, p: u8) -> Action {
    [kind.code(), p, 0, 0, 0, 0, 0, 0]
}

/// An action of `kind` with two fields.
pub const fn two(kind: Kind, p: u8, q: u8) -> Action {
    [kind.code(), p, q, 0, 0, 0, 0, 0]
}

/// An action of `kind` with a list. Panics where it has more than [`LONGEST_LIST`] numbers.
pub fn listing(kind: Kind, p: u8, list: &[u8]) -> Action {
    let mut action = [kind.code(), p, 0, list.len() as u8, 0, 0, 0, 0];
    action[4..4 + list.len()].copy_from_slice(list);
    action
}

/// An action of `kind` with a value of 32 bits.
pub const fn valued(kind: Kind, p: u8, value: u32) -> Action {
    let [a, b, c, d] = value.to_le_bytes();
    [kind.code(), p, 0, 0, a, b, c, d]
}

/// `cell` becomes `value`.
pub const fn set(cell: u8, value: u32) -> Action {
    valued(Kind::Set, cell, value)
}

/// `cell` becomes its sum with `other`.
pub const fn add(cell: u8, other: u8) -> Action {
    two(Kind::Add, cell, other)
}

/// `cell` becomes the smaller of itself and `other`.
pub const fn lesser(cell: u8, other: u8) -> Action {
    two(Kind::Lesser, cell, other)
}

/// Sends what `cell` holds to `mailbox`.
pub const fn send(mailbox: u8, cell: u8) -> Action {
    two(Kind::Send, mailbox, cell)
}

/// Asks `mailbox` for a value, meant for `cell`.
pub const fn receive(mailbox: u8, cell: u8) -> Action {
    two(Kind::Receive, mailbox, cell)
}

/// Writes the first place of `actions` that is done, or 0, into `result`.
pub fn test_any(result: u8, actions: &[u8]) -> Action {
    listing(Kind::TestAny, result, actions)
}

/// The same, once one is done.
pub fn wait_any(result: u8, actions: &[u8]) -> Action {
    listing(Kind::WaitAny, result, actions)
}

/// Joins the queue of `mutex`, or adds 1 to its depth there.
pub const fn lock(mutex: u8) -> Action {
    lone(Kind::Lock, mutex)
}

/// Takes 1 off its depth in the queue of `mutex`, and leaves it at 0.
pub const fn unlock(mutex: u8) -> Action {
    lone(Kind::Unlock, mutex)
}

/// Writes the first place of `mutexes` that is owned, or 0, into `result`.
pub fn mutex_test(result: u8, mutexes: &[u8]) -> Action {
    listing(Kind::MutexTest, result, mutexes)
}

/// The same, once one is owned.
pub fn mutex_wait(result: u8, mutexes: &[u8]) -> Action {
    listing(Kind::MutexWait, result, mutexes)
}

/// Adds its name and what `cell` holds to the journal.
pub const fn note(cell: u8) -> Action {
    lone(Kind::Note, cell)
}

/// The kind, if the first byte is one.
pub const fn kind(action: &Action) -> Option<Kind> {
    Kind::of(action[0])
}

/// The value in b4 to b7.
pub const fn value(action: &Action) -> u32 {
    u32::from_le_bytes([action[4], action[5], action[6], action[7]])
}

/// The list: z numbers from b4 on, and never more than there is room for.
pub fn list(action: &Action) -> &[u8] {
    let length = usize::from(action[3]).min(LONGEST_LIST);
    &action[4..4 + length]
}
