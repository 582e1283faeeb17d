//! Two schedules that differ by one dependent pair alone: each pair of kinds that can be dependent
//! must have been the one.

use crate::calls::orders::{kinds, names, opposed};
use crate::harness::tally::Tally;
use reference::pair::dependent;
use reference::{Name, check};
use tables::action::{listing, lone, receive, send, two, valued};
use tables::{Action, Kind, Layout, Rest};

/// The longest schedules that are looked at.
const LONGEST: usize = 40;

/// Counts the kinds of the dependent pair that two schedules with the same steps run in opposite
/// orders, where it is the only one: the step that the first schedule runs earlier comes first.
pub fn note(tally: &mut Tally, table: &[u8], first: &[u8], second: &[u8]) {
    if first.len() > LONGEST {
        return;
    }
    let table = check(table).expect("the table is accepted");
    let [first, second] = [first, second].map(|schedule| names(&table, schedule));
    let mut pairs = opposed(&first, &second).filter(|&(one, other)| dependent(&table, one, other));
    if let (Some(pair), None) = (pairs.next(), pairs.next()) {
        let (one, other) = kinds(&table, pair);
        tally.kinds(one, other);
    }
}

/// The pairs of kinds that can be dependent in steps of different actors, by the reference's verdict
/// on actions around one mailbox and one mutex.
pub fn dependent_kinds() -> Vec<(Kind, Kind)> {
    let mut script = vec![send(0, 0), receive(0, 0)];
    script.extend(Kind::ALL.map(around_one));
    let bytes = Layout::new(1, 1, &[&script, &script]).bytes();
    let table = check(&bytes).expect("the table is right");
    let name = |actor: usize, kind: Kind| Name::new(actor, 2 + kind as usize);
    let pairs = Kind::ALL.map(|one| Kind::ALL.map(|other| (one, other)));
    let all = pairs.into_iter().flatten();
    all.filter(|&(one, other)| dependent(&table, name(0, one), name(1, other)))
        .collect()
}

/// An action of a kind on mailbox 0, mutex 0, or the Send and the Receive that are actions 0 and 1.
fn around_one(kind: Kind) -> Action {
    match kind.rest() {
        Rest::Nothing => lone(kind, 0),
        Rest::Value => valued(kind, 0, 0),
        Rest::Cell => two(kind, 0, 0),
        Rest::Communications => listing(kind, 0, &[0, 1]),
        Rest::Mutexes => listing(kind, 0, &[0]),
    }
}
