//! How a call's two engines are compared, whatever the call.
//!
//! Each module leans on those before it alone:
//!
//! - [`slots`]: what a call is given, and the memory that it is lent; [`guarded`]: such memory at an
//!   inaccessible page;
//! - [`answer`]: what a call answers;
//! - [`asked`]: an input with both answers and what both engines left; what every call is held to;
//! - [`tally`] and [`demands`]: what a comparison counts, and what it must have met;
//! - [`call`]: what a comparison knows of a call;
//! - [`difference`]: an input on which the engines differ; [`panics`]: a panic as a difference;
//! - [`sides`]: both engines asked; [`shrink`]: a smaller input on which they still differ.

pub mod answer;
pub mod asked;
pub mod call;
pub mod demands;
pub mod difference;
pub mod guarded;
pub mod panics;
pub mod shrink;
pub mod sides;
pub mod slots;
pub mod tally;
