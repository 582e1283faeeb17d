//! Totals around the most that a cell holds, for the calls that step schedules: inputs that come before
//! the random ones, and what must have been met.

use crate::harness::asked::Asked;
use crate::harness::call::Each;
use crate::harness::demands::Demands;
use crate::harness::slots::Input;
use crate::harness::tally::Tally;
use crate::inputs::rng::Rng;
use crate::inputs::totals::{AROUND, summed};
use reference::route::room;
use reference::{Action, REPORT_ROOM, Reason, Site, Table, check};
use std::collections::BTreeSet;
use std::fmt;
use std::ops::ControlFlow;
use tables::Layout;
use tables::layout::CELLS;

/// The most that a cell holds.
const MOST: u64 = u32::MAX as u64;

/// The two Sets and the Add, and the Sets alone.
const WHOLE: &[u8] = &[0; 3];
const BEFORE: &[u8] = &[0; 2];

/// Goes through all pairs for a call of one schedule: the Add run, and come to.
pub fn sweep_one(_: &mut Rng, each: &mut Each<'_>) -> ControlFlow<()> {
    all_pairs([[WHOLE, &[]], [BEFORE, &[]]], each)
}

/// Goes through all pairs for a call of two schedules: the Add run in both, and in the second alone.
pub fn sweep_two(_: &mut Rng, each: &mut Each<'_>) -> ControlFlow<()> {
    all_pairs([[WHOLE, WHOLE], [BEFORE, WHOLE]], each)
}

/// The Add of every pair of cells with every pair of values around the limit, by these schedules.
fn all_pairs(schedules: [[&[u8]; 2]; 2], each: &mut Each<'_>) -> ControlFlow<()> {
    let mut input = Input {
        bytes: vec![7; REPORT_ROOM],
        entries: vec![7; room(WHOLE.len())],
        ..Input::default()
    };
    for cells in pairs(0..CELLS) {
        for values in pairs(AROUND) {
            let table = Layout::new(0, 0, &[&summed(cells, values)]).bytes();
            for [first, second] in schedules {
                input.read = [&table, first, second].map(<[u8]>::to_vec);
                each(&input)?;
            }
        }
    }
    ControlFlow::Continue(())
}

/// Every two of these, one and the same too.
fn pairs<T: Copy>(all: impl IntoIterator<Item = T> + Clone) -> impl Iterator<Item = [T; 2]> {
    let others = all.clone();
    let pairs = all.into_iter().map(move |one| (one, others.clone()));
    pairs.flat_map(|(one, others)| others.into_iter().map(move |other| [one, other]))
}

/// The sum of an Add, and what became of it.
#[derive(Clone, Copy, PartialEq, Eq, PartialOrd, Ord)]
struct Total {
    sum: u64,
    of_one_cell: bool,
    /// None where it was taken.
    refused: Option<Reason>,
}

impl Total {
    /// What must have been met where a call gives these of refusals 21 and 22: the greatest sums that are
    /// taken, and the least that are refused. A double is even.
    fn wanted(reasons: &[Reason]) -> Vec<Self> {
        let total = |of_one_cell, sum, refused| Self {
            sum,
            of_one_cell,
            refused,
        };
        let mut wanted = vec![total(false, MOST, None), total(true, MOST - 1, None)];
        for &reason in reasons {
            wanted.extend([false, true].map(|one| total(one, MOST + 1, Some(reason))));
        }
        wanted
    }
}

impl fmt::Display for Total {
    fn fmt(&self, f: &mut fmt::Formatter<'_>) -> fmt::Result {
        let cells = if self.of_one_cell {
            "one cell"
        } else {
            "two cells"
        };
        write!(f, "{} by {cells}, ", self.sum)?;
        match self.refused {
            None => write!(f, "taken"),
            Some(reason) => write!(f, "refused {}", reason.number()),
        }
    }
}

/// What a call that gives these of refusals 21 and 22 must have met, and how often.
pub fn demands<'a>(demands: Demands<'a>, reasons: &[Reason], least: u64) -> Demands<'a> {
    let wanted = Total::wanted(reasons).into_iter();
    let wanted: Vec<String> = wanted.map(|total| total.to_string()).collect();
    demands.notes(&wanted, least)
}

/// Notes the totals at the limit that an accepted call met, or one that it was refused for; each once.
pub fn note(tally: &mut Tally, asked: &Asked) {
    note_stepped(tally, asked, asked.input.slices());
}

/// Likewise of a call that steps these schedules, and no more of what it is given.
pub fn note_stepped(tally: &mut Tally, asked: &Asked, [table, first, second]: [&[u8]; 3]) {
    let refused = match asked.reference.refusal {
        0 => None,
        number => match Reason::of(number) {
            over @ Some(Reason::Over | Reason::SecondOver) => over,
            _ => return,
        },
    };
    let table = check(table).expect("the table is accepted");
    let mut met = totals(&table, first, refused);
    if refused != Some(Reason::Over) {
        met.extend(totals(&table, second, refused));
    }
    let wanted = Total::wanted(&[Reason::Over, Reason::SecondOver]);
    for total in met.iter().filter(|total| wanted.contains(total)) {
        tally.note(&total.to_string());
    }
}

/// The sums of the Adds that a schedule comes to, up to the first that is refused, for this reason.
fn totals(table: &Table, schedule: &[u8], reason: Option<Reason>) -> BTreeSet<Total> {
    let mut site = Site::fresh();
    let mut met = BTreeSet::new();
    for &entry in schedule {
        let actor = usize::from(entry);
        let record = *site.actor(actor);
        let action = table.action(actor, record.position);
        let taken = site.step(actor, &action).is_taken();
        if let Action::Add { cell, other } = action {
            met.insert(Total {
                sum: u64::from(record.cell(cell)) + u64::from(record.cell(other)),
                of_one_cell: cell == other,
                refused: if taken { None } else { reason },
            });
        }
        if !taken {
            break;
        }
    }
    met
}
