//! The drawn schedule: the answer and every byte lent; what was drawn is judged by the engine's other calls
//! too.

mod rule;
mod sights;

use crate::calls::locks::queues;
use crate::calls::notes::journal;
use crate::calls::room::Room;
use crate::harness::asked::Asked;
use crate::harness::call::{Call, Each};
use crate::harness::slots::{Buffer, Input, Lent, Number, Slots, TABLE};
use crate::inputs::rng::Rng;
use crate::inputs::{buffers, seeds, sites};
use crate::workload::{Load, Measure};
use reference::{Reason, SCHEDULE_MOST, quick};
use std::ops::ControlFlow;

/// The drawn schedule.
pub const CALL: Call = Call {
    name: "draw",
    about: "the drawn schedule and every byte lent",
    slots: Slots {
        read: &[TABLE],
        numbers: &[Number::Any("seed")],
        buffer: Buffer::Bytes("schedule buffer"),
    },
    refusals: &[&[Reason::ScheduleRoom], &Reason::OF_TABLE],
    cases: 80_000,
    next: |rng, input| {
        input.read[0] = sites::any(rng);
        input.numbers[0] = seeds::any(rng);
        buffers::bytes(rng, &mut input.bytes, SCHEDULE_MOST);
    },
    sweep,
    engine: |lent| {
        order_engine::draw::fields(lent.read[0], lent.numbers[0], lent.bytes).into()
    },
    reference: |lent: Lent| {
        let answer = reference::draw(lent.read[0], lent.numbers[0], lent.bytes);
        answer.map(|length| [length as u32]).into()
    },
    mistake: |asked| asked.unequal().or_else(|| rule::broken(asked)),
    note: |tally, asked| {
        ROOM.note(tally, asked, |input, buffer| {
            reference::draw(&input.read[0], input.numbers[0], buffer)
        });
        if asked.accepted() {
            sights::note(tally, asked.input, drawn(asked));
            journal::note(tally, &asked.input.read[0], drawn(asked));
            queues::note(tally, &asked.input.read[0], drawn(asked));
        }
    },
    demands: |demands, _| {
        let demands = demands
            .total("draws", 80_000)
            .accepted(50_000)
            .refused(&Reason::OF_TABLE, 200)
            .refused(&[Reason::ScheduleRoom], 2_000);
        let demands = ROOM.demands(demands, &[&Reason::OF_TABLE], 300);
        sights::demands(queues::demands(journal::demands(demands, 100), 30))
    },
};

const ROOM: Room = Room {
    least: SCHEDULE_MOST,
    refusal: Reason::ScheduleRoom,
};

/// What the proved engine drew, where both accepted and answer alike.
fn drawn<'a>(asked: &'a Asked) -> &'a [u8] {
    &asked.ours.bytes[..asked.engine.values[0] as usize]
}

/// How many random seeds each swept table is given, beside the corners.
const SEEDS: usize = 60;

/// Tables of each family with many seeds, in the least room.
fn sweep(rng: &mut Rng, each: &mut Each<'_>) -> ControlFlow<()> {
    let mut input = Input {
        bytes: vec![7; SCHEDULE_MOST],
        ..Input::default()
    };
    for family in sites::SITES {
        input.read[0] = family(rng);
        for seed in seeds::CORNERS {
            input.numbers[0] = seed;
            each(&input)?;
        }
        for _ in 0..SEEDS {
            input.numbers[0] = seeds::any(rng);
            each(&input)?;
        }
    }
    ControlFlow::Continue(())
}

/// Measures it on a load.
pub fn measure(measure: &mut impl Measure, load: &Load) {
    let (mut ours, mut theirs) = ([0; SCHEDULE_MOST], [0; SCHEDULE_MOST]);
    measure.measure(
        CALL.name,
        load,
        |work| {
            let schedule = order_engine::draw(&work.table, work.seed, &mut ours);
            schedule.expect("accepted").len()
        },
        |work| quick::draw(&work.table, work.seed, &mut theirs).expect("accepted"),
    );
}
