//! The exchange route. Which chain is taken is free, so that the proved engine's is replayed by the
//! reference; refusals must agree.

use crate::calls::{locks, notes, totals};
use crate::harness::answer::Answer;
use crate::harness::asked::Asked;
use crate::harness::call::Call;
use crate::harness::slots::{Buffer, FIRST, Input, Lent, SECOND, Slots, TABLE};
use crate::harness::tally::Tally;
use crate::inputs::buffers;
use crate::inputs::rng::Rng;
use crate::inputs::twins::Twins;
use crate::workload::{Load, Measure};
use order_engine::route_room;
use reference::route::room;
use reference::{Reason, check, quick, replay, replay_stepping};

/// The exchange route.
pub const CALL: Call = Call {
    name: "route",
    about: "the route, replayed, and every entry lent",
    slots: Slots {
        read: &[TABLE, FIRST, SECOND],
        numbers: &[],
        buffer: Buffer::Entries("route buffer"),
    },
    refusals: &[
        &Reason::OF_TABLE,
        &Reason::OF_FIRST,
        &Reason::OF_SECOND,
        &[Reason::Different, Reason::RouteRoom],
    ],
    cases: 130_000,
    next,
    sweep: totals::sweep_two,
    engine: |lent| {
        let [table, first, second] = lent.read;
        order_engine::route::fields(table, first, second, lent.entries).into()
    },
    reference: |lent: Lent| {
        let [table, first, second] = lent.read;
        let answer = reference::route(table, first, second, lent.entries);
        answer.map(|length| [length as u32]).into()
    },
    mistake,
    note,
    demands: |demands, tally| {
        let refused = |reason| tally.refused(reason);
        let pairs =
            tally.accepted() + refused(Reason::RouteRoom) + refused(Reason::Different);
        let demands = notes::exchanges::demands(demands, 50);
        let demands = locks::exchanges::demands(demands, 50);
        totals::demands(demands, &[Reason::Over, Reason::SecondOver], 100)
            .least("pairs of schedules", pairs, 100_000)
            .accepted(25_000)
            .refused(&Reason::OF_TABLE, 100)
            .places(&Reason::OF_FIRST, 200)
            .places(&Reason::OF_SECOND, 200)
            .refused(&[Reason::RouteRoom], 2_000)
            .refused(&[Reason::Different], 25_000)
            .notes(&[SHORT_AND_DIFFERENT], 1_000)
            .notes(&[NO_ROOM, FAR], 200)
    },
};

/// The longest schedules for which every schedule on the way is stepped anew.
const STEPPED: usize = 12;

const SHORTEST: &str = "routes of the least length";
const LONGER: &str = "routes longer than that";
const EMPTY: &str = "routes of no exchange";
const FAR: &str = "routes of 1,000 exchanges or more";
const SHORT_AND_DIFFERENT: &str = "refused 19 with too little room";
const NO_ROOM: &str = "accepted with no room lent";

/// Any table and two schedules, and a buffer of any length, mostly enough.
fn next(rng: &mut Rng, input: &mut Input) {
    input.read = Twins::any(rng).slices();
    // No schedule of more than 256 entries is accepted.
    let enough = room(input.read[1].len().min(256));
    let entries = match rng.below(16) {
        0 => enough.saturating_sub(1),
        1 => rng.below(enough + 1),
        2..9 => enough,
        9 => enough + 1,
        _ => enough + rng.below(40),
    };
    buffers::entries(rng, &mut input.entries, entries);
}

/// What is wrong with the answers, or with the route.
fn mistake(asked: &Asked) -> Option<String> {
    let (engine, reference) = (asked.engine, asked.reference);
    if !asked.accepted() {
        return (engine != reference).then(|| "the answers differ".to_string());
    }
    let length = engine.values[0];
    let accepted = Answer {
        values: [length, 0, 0],
        ..reference
    };
    if engine != accepted {
        return Some("a field that has to be 0 is not".to_string());
    }
    wrong(asked, length as usize)
}

/// What is wrong with a route of `length` entries, if anything.
fn wrong(asked: &Asked, length: usize) -> Option<String> {
    let [table, first, second] = &asked.input.read;
    if length > room(first.len()) {
        return Some("the route is too long".to_string());
    }
    let route = &asked.ours.entries[..length];
    let table = check(table).expect("the table is accepted");
    let replayed = match first.len() {
        ..=STEPPED => replay_stepping(&table, first, route),
        _ => replay(&table, first, route),
    };
    match replayed {
        Err(mistake) => Some(format!("entry {} is no exchange: {route:?}", mistake.index)),
        Ok(reached) if reached != *second => {
            Some(format!("the route {route:?} leads to {reached:?}"))
        }
        Ok(_) => None,
    }
}

fn note(tally: &mut Tally, asked: &Asked) {
    totals::note(tally, asked);
    let lent = asked.input.entries.len();
    if asked.accepted() {
        let (ours, least) = (asked.engine.values[0], asked.reference.values[0]);
        tally.note(if ours == least { SHORTEST } else { LONGER });
        if least == 0 {
            tally.note(EMPTY);
        }
        if least >= 1_000 {
            tally.note(FAR);
        }
        if lent == 0 {
            tally.note(NO_ROOM);
        }
    }
    let different = asked.reference.refusal == Reason::Different.number();
    if asked.accepted() || different {
        notes::exchanges::note(tally, asked.input.slices(), !different);
        locks::exchanges::note(tally, asked.input.slices(), !different);
    }
    if different && lent < room(asked.input.read[1].len()) {
        tally.note(SHORT_AND_DIFFERENT);
    }
}

/// Measures it on a load.
pub fn measure(measure: &mut impl Measure, load: &Load) {
    let mut ours = vec![0; route_room(256)];
    let mut theirs = ours.clone();
    measure.measure(
        CALL.name,
        load,
        |work| {
            let route = order_engine::route(&work.table, &work.first, &work.second, &mut ours);
            route.expect("same").len()
        },
        |work| {
            let route = quick::route(&work.table, &work.first, &work.second, &mut theirs);
            route.expect("same")
        },
    );
}
