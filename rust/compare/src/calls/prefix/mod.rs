//! The same verdict on two recordings as far as both go, and the number of pairs compared: those parts are
//! held to what two schedules are by the same verdict.

mod cut;

use crate::calls::{compared, lengths, locks, notes, same, totals};
use crate::harness::asked::Asked;
use crate::harness::call::Call;
use crate::harness::slots::{
    Buffer, FIRST_RECORDING, Input, Lent, SECOND_RECORDING, Slots, TABLE,
};
use crate::harness::tally::Tally;
use crate::inputs::recordings;
use crate::workload::{Load, Measure};
use reference::{Reason, quick};

/// The same verdict on recordings.
pub const CALL: Call = Call {
    name: "prefix",
    about: "the same verdict and the pairs compared, of two recordings as far as both go",
    slots: Slots {
        read: &[TABLE, FIRST_RECORDING, SECOND_RECORDING],
        numbers: &[],
        buffer: Buffer::None,
    },
    refusals: same::CALL.refusals,
    cases: 130_000,
    next: |rng, input| input.read = recordings::any(rng).slices(),
    sweep: compared::sweep,
    engine: |lent| {
        let [table, first, second] = lent.read;
        order_engine::prefix::fields(table, first, second).into()
    },
    reference: |lent: Lent| {
        let [table, first, second] = lent.read;
        let answer = reference::prefix(table, first, second);
        answer.map(same::numbers).into()
    },
    mistake: |asked| same::mistake(asked, parts(asked.input)),
    note,
    demands: |demands, _| {
        let demands = totals::demands(demands, &[Reason::Over, Reason::SecondOver], 100)
            .accepted(60_000)
            .refused(&Reason::OF_TABLE, 100)
            .refused(&Reason::OF_FIRST, 1_000)
            .refused(&Reason::OF_SECOND, 1_000);
        let demands = notes::exchanges::demands(demands, 50);
        let demands = locks::exchanges::demands(demands, 20);
        let demands = compared::corners::demands(demands, 10);
        cut::demands(lengths::demands(demands, 10))
    },
};

/// The table and what is stepped of the two recordings.
fn parts(input: &Input) -> [&[u8]; 3] {
    let [table, first, second] = input.slices();
    let cut = first.len().min(second.len());
    [table, &first[..cut], &second[..cut]]
}

fn note(tally: &mut Tally, asked: &Asked) {
    let [_, first, second] = asked.input.slices();
    lengths::note(tally, first, second);
    totals::note_stepped(tally, asked, parts(asked.input));
    if asked.accepted() {
        let [verdict, pairs, _] = asked.reference.values;
        compared::corners::note(tally, [verdict, pairs], parts(asked.input));
        notes::exchanges::note(tally, parts(asked.input), verdict == 1);
        locks::exchanges::note(tally, parts(asked.input), verdict == 1);
    }
    cut::note(tally, asked);
}

/// Measures it on a load: a schedule against a recording of three quarters of it, in another order.
pub fn measure(measure: &mut impl Measure, load: &Load) {
    measure.measure(
        CALL.name,
        load,
        |work| same::by_engine(order_engine::prefix::fields(&work.table, &work.first, &work.begun)),
        |work| same::by_reference(quick::prefix(&work.table, &work.first, &work.begun)),
    );
}
