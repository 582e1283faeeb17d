//! Where the longer recording is cut, and what stands before the cut and after it.

use crate::calls::lengths::{LONGER, longer};
use crate::harness::asked::Asked;
use crate::harness::demands::Demands;
use crate::harness::tally::Tally;
use reference::{Reason, quick};

/// Verdicts on what both recordings have.
const VERDICTS: [&str; 3] = ["different", "same by exchanges", "equal entries"];

/// Recordings of which the first's remainder is bad, and so is the second as far as it is stepped.
const BAD_REMAINDER_FIRST: &str = "the second refused, and the first after the cut";

/// What must have been met, and how often.
pub fn demands(demands: Demands) -> Demands {
    let verdicts = LONGER.map(|longer| VERDICTS.map(|verdict| beside(verdict, longer)));
    let tables = LONGER.map(|longer| Reason::OF_TABLE.map(|reason| refused(reason, longer)));
    let last = entries().flat_map(|reason| [true, false].map(|longer| last(reason, longer)));
    let after = entries().flat_map(|reason| VERDICTS.map(|verdict| after(verdict, reason)));
    demands
        .notes(verdicts.as_flattened(), 2_000)
        .notes(tables.as_flattened(), 20)
        .notes(&last.collect::<Vec<_>>(), 100)
        .notes(&after.collect::<Vec<_>>(), 20)
        .notes(&[BAD_REMAINDER_FIRST], 100)
}

/// The refusals of an entry.
fn entries() -> impl Iterator<Item = Reason> {
    Reason::OF_FIRST.into_iter().chain(Reason::OF_SECOND)
}

fn beside(verdict: &str, longer: &str) -> String {
    format!("{verdict}, {longer}")
}

fn refused(reason: Reason, longer: &str) -> String {
    format!("refused {}, {longer}", reason.number())
}

/// A refusal of the last entry that is stepped, of the longer recording or of the shorter.
fn last(reason: Reason, longer: bool) -> String {
    let which = if longer { "longer" } else { "shorter" };
    format!(
        "refused {} right before the cut, the {which}",
        reason.number()
    )
}

/// A verdict where the first entry after the cut is refused by the same verdict.
fn after(verdict: &str, reason: Reason) -> String {
    format!("{verdict}, {} right after the cut", reason.number())
}

/// Notes the answer by what stands around the cut.
pub fn note(tally: &mut Tally, asked: &Asked) {
    let [table, first, second] = asked.input.slices();
    let longer = longer(first, second);
    let cut = first.len().min(second.len());
    // What the same verdict refuses.
    let whole = || quick::same(table, first, second).err();
    let Some(reason) = Reason::of(asked.reference.refusal) else {
        let [different, exchanged, equal] = VERDICTS;
        let verdict = match asked.reference.values[0] {
            0 => different,
            _ if first[..cut] != second[..cut] => exchanged,
            _ => equal,
        };
        tally.note(&beside(verdict, longer));
        if let Some(refusal) = whole()
            && refusal.position as usize == cut
        {
            tally.note(&after(verdict, refusal.reason));
        }
        return;
    };
    if Reason::OF_TABLE.contains(&reason) {
        tally.note(&refused(reason, longer));
        return;
    }
    let of_first = Reason::OF_FIRST.contains(&reason);
    if first.len() != second.len() && asked.reference.position as usize + 1 == cut {
        tally.note(&last(reason, of_first == (first.len() > cut)));
    }
    if !of_first && whole().is_some_and(|whole| Reason::OF_FIRST.contains(&whole.reason)) {
        tally.note(BAD_REMAINDER_FIRST);
    }
}
