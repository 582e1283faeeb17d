//! Whether two schedules are one and the same run.

use crate::fields::Fields;
use crate::refusal::Refusal;
use crate::step::StepName;

unsafe extern "C" {
    fn order_same(
        table: *const u8,
        table_length: usize,
        first: *const u8,
        first_length: usize,
        second: *const u8,
        second_length: usize,
    ) -> Fields<2>;
}

/// The verdict on two schedules.
#[derive(Clone, Copy, PartialEq, Eq, Hash, Debug)]
pub enum SameVerdict {
    /// No chain of exchanges turns the first schedule into the second.
    Different,
    /// Some chain does; both schedules end in the same state.
    Same,
}

/// What [`same`] and [`prefix`](crate::prefix()) answer.
///
/// Once both schedules have been stepped, pairs of entries i < j of the first are compared by rising j, then
/// rising i, up to the first dependent pair that the second runs in the opposite order.
#[derive(Clone, Copy, PartialEq, Eq, Hash, Debug)]
#[non_exhaustive]
pub struct Same {
    /// The verdict.
    pub verdict: SameVerdict,
    /// How many pairs were compared: all m·(m − 1)/2 of m entries where the verdict is "same"; 0 where the
    /// lengths differ or the two ran other steps; otherwise the one that ended the search included, so that
    /// the number tells which it is ([`Self::entries`]).
    pub pairs: u32,
    /// The pair that ended the search: the first schedule's earlier step, then its later one.
    pub opposed: Option<[StepName; 2]>,
}

impl Same {
    /// What a call answered about this first schedule, or its refusal.
    pub(crate) fn of(fields: Fields<2>, first: &[u8]) -> Result<Self, Refusal> {
        let [verdict, pairs] = fields.accepted()?;
        let verdict = match verdict {
            0 => SameVerdict::Different,
            1 => SameVerdict::Same,
            other => unreachable!("a call answered with the same verdict {other}"),
        };
        let mut same = Self {
            verdict,
            pairs,
            opposed: None,
        };
        let ended = same.entries();
        same.opposed = ended.map(|(i, j)| [i, j].map(|entry| step_of(first, entry)));
        Ok(same)
    }

    /// Whether the two schedules are the same run.
    pub fn is_same(&self) -> bool {
        self.verdict == SameVerdict::Same
    }

    /// The entries i < j of the first schedule whose pair ended the search; none where no pair did.
    pub fn entries(&self) -> Option<(usize, usize)> {
        let ended = !self.is_same() && self.pairs > 0;
        ended.then(|| entries_of(self.pairs))
    }
}

/// The entries i < j whose pair is the so-manyth, counted from 1, by rising j, then rising i.
fn entries_of(number: u32) -> (usize, usize) {
    // Before it are the j·(j − 1)/2 pairs of lower later entries, and i more.
    let before = number as usize - 1;
    let j = (8 * before + 1).isqrt().div_ceil(2);
    (before - j * (j - 1) / 2, j)
}

/// The step that an entry of an accepted schedule runs: each of an actor's entries runs its next action.
fn step_of(schedule: &[u8], entry: usize) -> StepName {
    let actor = schedule[entry];
    let earlier = schedule[..entry].iter().filter(|&&other| other == actor);
    StepName::new(actor, earlier.count() as u8)
}

/// Whether exchanges of independent neighbours turn schedule `first` into `second`.
///
/// Refusals: 1 to 9, then 11 to 13 and 21 for the first schedule, then 14 to 16 and 22 for the second.
///
/// ```
/// use order_engine::{StepName, same};
///
/// // Two actors, each with a Set and then a Send to mailbox 0.
/// let (set, send) = ([0, 0, 0, 0, 7, 0, 0, 0], [3, 0, 0, 0, 0, 0, 0, 0]);
/// let head = [1, 2, 1, 0, 12, 0, 2, 0, 28, 0, 2, 0];
/// let table = [&head[..], &set, &send, &set, &send].concat();
///
/// let answer = same(&table, &[0, 0, 1, 1], &[1, 0, 0, 1]).unwrap();
/// assert!(answer.is_same());
/// assert_eq!(answer.pairs, 6);
///
/// // The Sends run in opposite orders: entries 1 and 3 of the first schedule, the fifth pair.
/// let answer = same(&table, &[0, 0, 1, 1], &[1, 1, 0, 0]).unwrap();
/// assert_eq!((answer.pairs, answer.entries()), (5, Some((1, 3))));
/// assert_eq!(answer.opposed, Some([StepName::new(0, 1), StepName::new(1, 1)]));
///
/// // Other steps: no pair is compared.
/// let answer = same(&table, &[0, 0], &[0, 1]).unwrap();
/// assert_eq!((answer.is_same(), answer.pairs, answer.opposed), (false, 0, None));
/// ```
pub fn same(table: &[u8], first: &[u8], second: &[u8]) -> Result<Same, Refusal> {
    Same::of(fields(table, first, second), first)
}

/// The answer as C has it: 0 different, 1 same; and how many pairs were compared.
pub fn fields(table: &[u8], first: &[u8], second: &[u8]) -> Fields<2> {
    // SAFETY: pointers and lengths are those of slices that are borrowed throughout the call, which
    // only reads them.
    unsafe {
        order_same(
            table.as_ptr(),
            table.len(),
            first.as_ptr(),
            first.len(),
            second.as_ptr(),
            second.len(),
        )
    }
}

#[cfg(test)]
mod tests {
    use super::{Same, SameVerdict, entries_of, step_of};
    use crate::fields::Fields;
    use crate::step::StepName;

    #[test]
    fn each_number_tells_a_pair() {
        let pairs = (0..256).flat_map(|j| (0..j).map(move |i| (i, j)));
        let mut last = 0;
        for (number, pair) in (1..).zip(pairs) {
            assert_eq!(entries_of(number), pair);
            last = number;
        }
        assert_eq!(last, 32_640);
    }

    #[test]
    fn the_step_of_an_entry() {
        let schedule = [2, 0, 2, 2, 0];
        let names = [(2, 0), (0, 0), (2, 1), (2, 2), (0, 1)].map(StepName::from);
        for (entry, name) in names.into_iter().enumerate() {
            assert_eq!(step_of(&schedule, entry), name);
        }
    }

    #[test]
    fn a_pair_only_where_one_ended_the_search() {
        let answered = |values| {
            let fields = Fields {
                refusal: 0,
                position: 0,
                values,
            };
            Same::of(fields, &[0, 1, 1]).unwrap()
        };
        let same = answered([1, 3]);
        assert_eq!((same.verdict, same.pairs), (SameVerdict::Same, 3));
        assert_eq!((same.entries(), same.opposed), (None, None));
        let other_steps = answered([0, 0]);
        assert_eq!((other_steps.entries(), other_steps.opposed), (None, None));
        let last = answered([0, 3]);
        assert_eq!(last.entries(), Some((1, 2)));
        let names = [(1, 0), (1, 1)].map(StepName::from);
        assert_eq!(last.opposed, Some(names));
    }
}
