//! The page: the answer and every byte lent.

mod sights;

use crate::calls::locks::queues;
use crate::calls::notes::journal;
use crate::calls::room::Room;
use crate::calls::totals;
use crate::harness::call::Call;
use crate::harness::slots::{Buffer, Lent, SCHEDULE, Slots, TABLE};
use crate::inputs::steps::Steps;
use crate::inputs::{buffers, digits};
use crate::workload::{Load, Measure};
use reference::{PAGE_ROOM, Reason, quick};

/// The page.
pub const CALL: Call = Call {
    name: "page",
    about: "the page and every byte lent",
    slots: Slots {
        read: &[TABLE, SCHEDULE],
        numbers: &[],
        buffer: Buffer::Bytes("page buffer"),
    },
    refusals: &[&[Reason::PageRoom], &Reason::OF_TABLE, &Reason::OF_FIRST],
    cases: 240_000,
    next: |rng, input| {
        let make = rng.pick(&[digits::steps, Steps::any, Steps::any, Steps::any]);
        input.read = make(rng).slices();
        buffers::bytes(rng, &mut input.bytes, PAGE_ROOM);
    },
    sweep: totals::sweep_one,
    engine: |lent| order_engine::page::fields(lent.read[0], lent.read[1], lent.bytes).into(),
    reference: |lent: Lent| {
        let answer = reference::page(lent.read[0], lent.read[1], lent.bytes);
        answer.map(|length| [length as u32]).into()
    },
    mistake: |asked| asked.unequal(),
    note: |tally, asked| {
        totals::note(tally, asked);
        ROOM.note(tally, asked, |input, buffer| {
            let [table, schedule, _] = input.slices();
            reference::page(table, schedule, buffer)
        });
        if asked.accepted() {
            let [table, schedule, _] = asked.input.slices();
            journal::note(tally, table, schedule);
            queues::note(tally, table, schedule);
            let length = asked.reference.values[0] as usize;
            sights::note(tally, &asked.theirs.bytes[..length]);
        }
    },
    demands: |demands, _| {
        let demands = demands
            .total("pages", 200_000)
            .accepted(80_000)
            .refused(&Reason::OF_TABLE, 200)
            .refused(&[Reason::PageRoom], 5_000)
            .places(&Reason::OF_FIRST, 2_000);
        let demands = totals::demands(demands, &[Reason::Over], 1_000);
        let then = [&Reason::OF_TABLE[..], &Reason::OF_FIRST];
        let demands = queues::demands(ROOM.demands(demands, &then, 1_000), 30);
        sights::demands(journal::demands(demands, 100))
    },
};

const ROOM: Room = Room {
    least: PAGE_ROOM,
    refusal: Reason::PageRoom,
};

/// Measures it on a load, three quarters of the way.
pub fn measure(measure: &mut impl Measure, load: &Load) {
    let (mut ours, mut theirs) = ([0; PAGE_ROOM], [0; PAGE_ROOM]);
    measure.measure(
        CALL.name,
        load,
        |work| {
            let page = order_engine::page(&work.table, work.part(), &mut ours);
            page.expect("accepted").len()
        },
        |work| quick::page(&work.table, work.part(), &mut theirs).expect("accepted"),
    );
}
