//! Safe calls of the proved order engine.
//!
//! The engine is written and proved in Rattle and linked as a static library. The proof ends at the
//! library's boundary: this crate passes each slice as a pointer and a length, and turns each answer
//! into a [`Result`]; but [`remainder()`] refuses nothing. A refusal tells its number, its position and a
//! sentence.
//!
//! - [`check()`]: whether a file is a task table;
//! - [`run()`], [`ready()`] and [`page()`]: what a schedule leads to, as a [`Report`], who is ready then,
//!   and the same as a text with a line for each actor;
//! - [`draw()`]: a schedule that a seed determines, to its end;
//! - [`pair()`], [`same()`] and [`route()`]: whether two steps are dependent, whether two schedules are
//!   one and the same run, which steps tell that they are not, and the exchanges that lead from the one to
//!   the other;
//! - [`prefix()`] and [`remainder()`]: whether two recordings are one run as far as both go, and what is
//!   left of the longer.
//!
//! Each call has a module of its name, whose `fields` gives the answer as C has it.
//!
//! ```
//! // One actor without actions.
//! let table = [1, 1, 0, 0, 8, 0, 0, 0];
//! assert_eq!(order_engine::check(&table), Ok(()));
//! let ready = order_engine::ready(&table, &[]).unwrap();
//! assert_eq!(ready.ending, order_engine::Ending::Finished);
//!
//! let refusal = order_engine::ready(&table, &[0]).unwrap_err();
//! assert_eq!((refusal.number(), refusal.position()), (12, 0));
//! ```

pub mod check;
pub mod draw;
mod fields;
pub mod page;
pub mod pair;
pub mod prefix;
pub mod ready;
mod refusal;
pub mod remainder;
pub mod report;
pub mod route;
pub mod run;
pub mod same;
mod step;

pub use check::check;
pub use draw::{SCHEDULE_MOST, draw};
pub use fields::Fields;
pub use page::{PAGE_ROOM, page};
pub use pair::{PairVerdict, pair};
pub use prefix::prefix;
pub use ready::{Ending, Ready, ready};
pub use refusal::{Reason, Refusal};
pub use remainder::{Recording, remainder};
pub use report::{Actor, Communication, Entry, Journal, Mailbox, Mutex, Queued, Report, Stage};
pub use route::{route, route_room};
pub use run::{REPORT_ROOM, run};
pub use same::{Same, SameVerdict, same};
pub use step::StepName;
