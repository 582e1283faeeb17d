//! The ready answer.

use crate::calls::locks::queues;
use crate::calls::notes::journal;
use crate::calls::totals;
use crate::harness::asked::Asked;
use crate::harness::call::Call;
use crate::harness::slots::{Buffer, Lent, SCHEDULE, Slots, TABLE};
use crate::harness::tally::Tally;
use crate::inputs::steps::Steps;
use crate::inputs::walk::Walk;
use crate::workload::{Load, Measure};
use reference::{Ending, Ready, Reason, Status, check};

/// The ready answer.
pub const CALL: Call = Call {
    name: "ready",
    about: "the ready answer",
    slots: Slots {
        read: &[TABLE, SCHEDULE],
        numbers: &[],
        buffer: Buffer::None,
    },
    refusals: &[&Reason::OF_TABLE, &Reason::OF_FIRST],
    cases: 220_000,
    next: |rng, input| input.read = Steps::any(rng).slices(),
    sweep: totals::sweep_one,
    engine: |lent| order_engine::ready::fields(lent.read[0], lent.read[1]).into(),
    reference: |lent: Lent| {
        let answer = reference::ready(lent.read[0], lent.read[1]);
        answer.map(numbers).into()
    },
    mistake: |asked| asked.unequal(),
    note,
    demands: |demands, _| {
        let demands = demands.total("ready answers", 200_000).accepted(80_000);
        let demands = demands
            .refused(&Reason::OF_TABLE, 200)
            .places(&Reason::OF_FIRST, 2_000)
            .notes(&[FINISHED, STUCK_WAITING, GOING, GOING_WAITING], 5_000)
            .notes(&[STUCK_OVER, STUCK_BOTH, GOING_OVER, GOING_BOTH], 300);
        let demands = totals::demands(demands, &[Reason::Over], 1_000);
        queues::demands(journal::demands(demands, 100), 30)
    },
};

const FINISHED: &str = "finished";
const STUCK_WAITING: &str = "stuck, all that are left waiting";
const STUCK_OVER: &str = "stuck, all that are left over";
const STUCK_BOTH: &str = "stuck, some waiting and some over";
const GOING: &str = "going, all that are left ready";
const GOING_WAITING: &str = "going, some waiting";
const GOING_OVER: &str = "going, some over";
const GOING_BOTH: &str = "going, some waiting and some over";

/// An answer as the C struct has it.
fn numbers(answer: Ready) -> [u32; 3] {
    let ending = match answer.ending {
        Ending::Finished => 0,
        Ending::Stuck => 1,
        Ending::Going => 2,
    };
    [answer.mask, answer.count, ending]
}

/// Notes what sort of accepted answer it was.
fn note(tally: &mut Tally, asked: &Asked) {
    totals::note(tally, asked);
    if !asked.accepted() {
        return;
    }
    let [table, schedule, _] = &asked.input.read;
    journal::note(tally, table, schedule);
    queues::note(tally, table, schedule);
    let table = check(table).expect("the table is accepted");
    let walk = Walk::along(&table, schedule);
    let some = |status| (0..table.actors()).any(|actor| walk.status(actor) == status);
    let [_, _, ending] = asked.reference.values;
    tally.note(match (ending, some(Status::Waits), some(Status::Over)) {
        (0, ..) => FINISHED,
        (1, _, false) => STUCK_WAITING,
        (1, false, true) => STUCK_OVER,
        (1, true, true) => STUCK_BOTH,
        (_, false, false) => GOING,
        (_, true, false) => GOING_WAITING,
        (_, false, true) => GOING_OVER,
        (_, true, true) => GOING_BOTH,
    });
}

/// Measures it on a load, three quarters of the way.
pub fn measure(measure: &mut impl Measure, load: &Load) {
    measure.measure(
        CALL.name,
        load,
        |work| {
            let answer = order_engine::ready(&work.table, work.part());
            answer.expect("accepted").mask as usize
        },
        |work| {
            let answer = reference::ready(&work.table, work.part());
            answer.expect("accepted").mask as usize
        },
    );
}
