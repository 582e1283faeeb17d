//! Who is ready, and whether the site has ended.

use crate::follow::{Schedule, follow};
use crate::reader::check;
use crate::refusal::Refusal;
use crate::site::Site;
use crate::status::Status;
use crate::table::Table;

/// How a state stands.
#[derive(Clone, Copy, PartialEq, Eq, Debug)]
pub enum Ending {
    /// Every actor is finished.
    Finished,
    /// Not finished, and nobody is ready.
    Stuck,
    /// Somebody is ready.
    Going,
}

/// The ready answer.
#[derive(Clone, Copy, PartialEq, Eq, Debug)]
pub struct Ready {
    /// Bit i, from the lowest: actor i is ready.
    pub mask: u32,
    /// How many actors are ready.
    pub count: u32,
    /// The ending.
    pub ending: Ending,
}

impl Ready {
    /// The answer for a state that the table's steps reached.
    pub fn of(table: &Table, site: &Site) -> Self {
        let mut mask = 0;
        let mut finished = true;
        for (actor, script) in table.scripts().iter().enumerate() {
            let status = Status::of(script, site, actor);
            finished &= status == Status::Finished;
            if status == Status::Ready {
                mask |= 1 << actor;
            }
        }
        let ending = match (finished, mask) {
            (true, _) => Ending::Finished,
            (false, 0) => Ending::Stuck,
            _ => Ending::Going,
        };
        Self {
            mask,
            count: mask.count_ones(),
            ending,
        }
    }
}

/// The ready answer for the state that a schedule leads to: refusals 1 to 9, then 11 to
/// 13 and 21.
pub fn ready(table: &[u8], schedule: &[u8]) -> Result<Ready, Refusal> {
    let table = check(table)?;
    let mut site = Site::fresh();
    follow(&table, Schedule::First, schedule, &mut site, |_, _| {})?;
    Ok(Ready::of(&table, &site))
}
