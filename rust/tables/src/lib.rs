//! Task tables as bytes: what a table is made of, and how to write one.
//!
//! - [`kind`]: the kinds of action and what each uses its bytes for;
//! - [`action`]: an action's eight bytes, one function for each kind;
//! - [`layout`]: a table taken apart into its actors' actions, and put together;
//! - [`text`]: a table as a text, a line for each action;
//! - [`example`]: the specification's table A.
//!
//! Nothing here judges a table: whether one is accepted is the engine's to say.

#![forbid(unsafe_code)]

pub mod action;
pub mod example;
pub mod kind;
pub mod layout;
pub mod text;

pub use action::Action;
pub use example::TABLE_A;
pub use kind::{Field, Kind, Rest};
pub use layout::Layout;
