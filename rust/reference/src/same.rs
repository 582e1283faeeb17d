//! The same verdict: whether a chain of exchanges turns one schedule into another. Decided by normal
//! forms, not by looking for pairs in opposite orders; the number of pairs is counted beside it.

use crate::compared::compared;
use crate::follow::Schedule;
use crate::name::Name;
use crate::pair::dependent;
use crate::reader::check;
use crate::refusal::Refusal;
use crate::table::Table;
use crate::trace::Trace;

/// What the same verdict answers.
#[derive(Clone, Copy, PartialEq, Eq, Debug)]
pub struct Same {
    /// Whether the two are the same.
    pub is_same: bool,
    /// How many pairs of entries of the first are compared.
    pub pairs: u32,
}

/// Whether two accepted schedules are the same, and how many pairs are compared: refusals 1 to 9, then
/// 11 to 13 and 21 for the first, then 14 to 16 and 22 for the second.
pub fn same(table: &[u8], first: &[u8], second: &[u8]) -> Result<Same, Refusal> {
    let table = check(table)?;
    let (first, second) = traces(&table, first, second)?;
    Ok(Same {
        is_same: same_traces(&table, &first, &second),
        pairs: compared(&table, first.names(), second.names()).pairs,
    })
}

/// Steps the first schedule whole, then the second.
pub(crate) fn traces<'a>(
    table: &'a Table,
    first: &[u8],
    second: &[u8],
) -> Result<(Trace<'a>, Trace<'a>), Refusal> {
    let first = Trace::of(table, Schedule::First, first)?;
    let second = Trace::of(table, Schedule::Second, second)?;
    Ok((first, second))
}

/// Whether two traces have one normal form.
pub fn same_traces(table: &Table, first: &Trace, second: &Trace) -> bool {
    levels(table, first.names()) == levels(table, second.names())
}

/// The normal form of a trace (Foata's): by name the level of its step, 0 for one that is not run. A
/// step's level is one above the highest of the earlier steps that it depends on. Steps of one level
/// are independent of one another and may come in any order; an exchange changes no level.
fn levels(table: &Table, names: &[Name]) -> [u16; Name::COUNT] {
    let mut levels = [0; Name::COUNT];
    for (place, &name) in names.iter().enumerate() {
        let earlier = names[..place].iter();
        let below = earlier.filter(|&&other| dependent(table, other, name));
        let highest = below.map(|other| levels[other.index()]).max();
        levels[name.index()] = highest.unwrap_or(0) + 1;
    }
    levels
}
