//! A table as a text that people write and read: its counts, then each actor with a line for each
//! of its actions.
//!
//! ```text
//! # two actors, one mailbox
//! actors 2
//! mailboxes 1
//! mutexes 0
//!
//! actor 0
//! 0: set 0 149
//! 1: send 0 0
//!
//! actor 1
//! receive 0 2
//! wait 3 [0]
//! ```
//!
//! The three counts stand first, in this order, and the actors follow in theirs, also those without
//! actions. An action's line is its number within its actor and a colon, which may be left out; the
//! [word](crate::Kind::word) of its kind; what its kind counts [first](crate::Kind::field); and
//! the [rest](crate::Kind::rest), a list in brackets. Numbers are decimal, or hexadecimal after `0x`;
//! between those of a list stand spaces or a comma. `#` begins a comment, and blank lines are free.
//!
//! What the text says need not be a table that the engine accepts: only what does not fit the bytes
//! is a [`Mistake`].

mod actions;
mod build;
mod decode;
mod line;
mod number;
mod place;
mod quote;
mod schedule;
mod show;
#[cfg(test)]
mod tests;

pub use build::{Built, build};
pub use decode::{decode, looks_like_text};
pub use number::{ACTION, ACTOR, Number};
pub use place::{Mistake, Place};
pub use quote::quoted;
pub use schedule::schedule;
pub use show::{show, show_action};
