//! The run: the answer and every byte lent.

mod corners;

use crate::calls::locks::queues;
use crate::calls::notes::journal;
use crate::calls::room::Room;
use crate::calls::totals;
use crate::harness::call::Call;
use crate::harness::slots::{Buffer, Lent, SCHEDULE, Slots, TABLE};
use crate::inputs::buffers;
use crate::inputs::steps::Steps;
use crate::workload::{Load, Measure};
use reference::{REPORT_ROOM, Reason};

/// The run.
pub const CALL: Call = Call {
    name: "run",
    about: "the run and every byte lent",
    slots: Slots {
        read: &[TABLE, SCHEDULE],
        numbers: &[],
        buffer: Buffer::Bytes("report buffer"),
    },
    refusals: &[&[Reason::ReportRoom], &Reason::OF_TABLE, &Reason::OF_FIRST],
    cases: 240_000,
    next: |rng, input| {
        input.read = Steps::any(rng).slices();
        buffers::bytes(rng, &mut input.bytes, REPORT_ROOM);
    },
    sweep: totals::sweep_one,
    engine: |lent| order_engine::run::fields(lent.read[0], lent.read[1], lent.bytes).into(),
    reference: |lent: Lent| {
        let answer = reference::run(lent.read[0], lent.read[1], lent.bytes);
        answer.map(|length| [length as u32]).into()
    },
    mistake: |asked| asked.unequal(),
    note: |tally, asked| {
        totals::note(tally, asked);
        ROOM.note(tally, asked, |input, buffer| {
            reference::run(&input.read[0], &input.read[1], buffer)
        });
        if asked.accepted() {
            let [table, schedule, _] = &asked.input.read;
            corners::note(tally, table, schedule, asked.reference.values[0]);
            journal::note(tally, table, schedule);
            queues::note(tally, table, schedule);
        }
    },
    demands: |demands, _| {
        let demands = demands.total("runs", 200_000).accepted(80_000);
        let demands = demands
            .refused(&Reason::OF_TABLE, 200)
            .refused(&[Reason::ReportRoom], 5_000)
            .places(&Reason::OF_FIRST, 2_000);
        let demands = corners::demands(totals::demands(demands, &[Reason::Over], 1_000));
        let then = [&Reason::OF_TABLE[..], &Reason::OF_FIRST];
        queues::demands(journal::demands(ROOM.demands(demands, &then, 1_000), 100), 30)
    },
};

const ROOM: Room = Room {
    least: REPORT_ROOM,
    refusal: Reason::ReportRoom,
};

/// Measures it on a load.
pub fn measure(measure: &mut impl Measure, load: &Load) {
    let (mut ours, mut theirs) = ([0; REPORT_ROOM], [0; REPORT_ROOM]);
    measure.measure(
        CALL.name,
        load,
        |work| {
            let report = order_engine::run(&work.table, &work.first, &mut ours);
            report.expect("accepted").bytes().len()
        },
        |work| reference::run(&work.table, &work.first, &mut theirs).expect("accepted"),
    );
}
