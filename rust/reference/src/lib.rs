//! The order engine of documents 01 and 02 in plain Rust, written from them.
//!
//! It exists to be compared with the proved engine, in answers and in speed. Each module holds one
//! part of the documents:
//!
//! - [`refusal`]: what a refusal says;
//! - [`action`]: an action taken apart;
//! - [`reader`]: the table reader, refusals 1 to 9;
//! - [`table`]: a table that the reader accepted;
//! - [`name`]: a step's name;
//! - [`actor`], [`communication`], [`mailbox`], [`mutex`], [`journal`]: the parts of a site's state;
//! - [`next`], [`site`]: what an actor's next step is, and the state and its steps;
//! - [`mod@follow`]: stepping along a schedule, refusals 11 to 16, 21 and 22;
//! - [`status`], [`mod@ready`]: how an actor stands, and the ready answer;
//! - [`report`], [`mod@run`], [`mod@page`]: the state report, the run and the page;
//! - [`mod@make`], [`mod@draw`]: schedules that are made, refusal 23, and the one that a seed determines;
//! - [`mod@pair`]: the pair verdict, by its five cases;
//! - [`trace`], [`mod@same`], [`mod@compared`], [`mod@route`]: an accepted schedule's steps, the same
//!   verdict by normal forms, how many pairs it compares, and the exchange route;
//! - [`mod@prefix`], [`mod@remainder`]: the same verdict on what two recordings both have, and what is left
//!   of the longer;
//! - [`search`] and [`mod@replay`]: the same verdict by searching all chains, and a route replayed;
//! - [`quick`] and [`footprint`]: the page, the draw, the same verdict, also of recordings, and the route
//!   made for speed, to be measured.
//!
//! The stepping engine knows a table by [`Table`] alone, which only [`check`] makes. Stepping needs no
//! heap, and a step costs the same however long the schedule and the queues are.
//!
//! # What it shares with the proved engine
//!
//! Its writers: a sentence of the document that they misread may be misread in both. No code and no
//! table of numbers; but the numbers of the kinds are those of the crate `tables`, which also writes
//! the tables that both are given.
//!
//! Stepping follows the same sentences in much the same way: names in a mailbox are written one after
//! the other and never moved, a test goes through its list. The route pulls each entry to its place in
//! turn, as the proved one does. Decided by another way: the reader's forms (masks over an action's
//! bytes), an Add's sum (made and found too large, not compared beforehand), a mutex's queue (for each
//! actor its depth and who is ahead of it, without a list), the page (Rust's own formatting), a draw
//! (numbers of 64 bits, so that nothing runs over before the remainder is taken, and a list of the ready
//! actors), dependence (the five cases as the documents have them, without a table of codes), the same
//! verdict (normal forms; on short schedules also a search through all chains), how many pairs are
//! compared (one by one, with no formula), and where the longer of two recordings is cut (entry by entry,
//! without looking at a length).
//! [`quick`], which is measured and not compared, is made as a Rust program for speed would be.

#![forbid(unsafe_code)]

pub mod action;
pub mod actor;
pub mod communication;
pub mod compared;
pub mod draw;
pub mod follow;
pub mod footprint;
pub mod journal;
pub mod mailbox;
pub mod make;
pub mod mutex;
pub mod name;
pub mod next;
pub mod page;
pub mod pair;
pub mod prefix;
pub mod quick;
pub mod reader;
pub mod ready;
pub mod refusal;
pub mod remainder;
pub mod replay;
pub mod report;
pub mod route;
pub mod run;
pub mod same;
pub mod search;
pub mod site;
pub mod status;
pub mod table;
pub mod trace;

pub use action::{Action, List};
pub use draw::draw;
pub use follow::{Schedule, follow};
pub use make::SCHEDULE_MOST;
pub use name::Name;
pub use next::Next;
pub use page::{PAGE_ROOM, page};
pub use pair::pair;
pub use prefix::prefix;
pub use reader::{check, validate};
pub use ready::{Ending, Ready, ready};
pub use refusal::{Reason, Refusal};
pub use remainder::{Remainder, remainder};
pub use replay::{replay, replay_stepping};
pub use report::REPORT_ROOM;
pub use route::route;
pub use run::run;
pub use same::{Same, same};
pub use search::chain_exists;
pub use site::Site;
pub use status::Status;
pub use table::Table;
