//! Two schedules of the same steps, with Notes among those that they run in opposite orders: what must have been
//! met.

use super::has_notes;
use crate::calls::orders::{kinds, names, opposed, same_steps};
use crate::harness::demands::Demands;
use crate::harness::tally::Tally;
use reference::check;
use std::collections::BTreeSet;
use tables::Kind;

/// The longest schedules that are looked at.
const LONGEST: usize = 40;

const NOTES_ALONE: &str = "different, by the order of two Notes alone";

/// What must have been met, and how often: schedules that are the same and have a Note and a step of every other
/// kind in opposite orders, either of them the earlier; and two Notes that make the whole difference.
pub fn demands(demands: Demands, least: u64) -> Demands {
    let others = Kind::ALL.into_iter().filter(|&kind| kind != Kind::Note);
    let pairs = others.flat_map(|kind| [same(kind, Kind::Note), same(Kind::Note, kind)]);
    demands
        .notes(&pairs.collect::<Vec<_>>(), least)
        .notes(&[NOTES_ALONE], least)
}

fn same(earlier: Kind, later: Kind) -> String {
    format!("same, {} before {} or not", earlier.name(), later.name())
}

/// Notes what two accepted schedules, which are the same or not, run in opposite orders.
pub fn note(tally: &mut Tally, [table, first, second]: [&[u8]; 3], are_same: bool) {
    let table = check(table).expect("the table is accepted");
    if first.len() > LONGEST || !has_notes(&table) {
        return;
    }
    let [first, second] = [first, second].map(|schedule| names(&table, schedule));
    if !same_steps(&first, &second) {
        return;
    }
    let pairs: Vec<_> = opposed(&first, &second).collect();
    let all: BTreeSet<(Kind, Kind)> = pairs.iter().map(|&pair| kinds(&table, pair)).collect();
    if are_same {
        for (one, other) in all {
            if one == Kind::Note || other == Kind::Note {
                tally.note(&same(one, other));
            }
        }
    } else if pairs.len() == 1 && all.contains(&(Kind::Note, Kind::Note)) {
        tally.note(NOTES_ALONE);
    }
}
