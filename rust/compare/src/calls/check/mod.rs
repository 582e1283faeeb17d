//! The table reader.

mod actions;

use crate::harness::call::{Call, Each};
use crate::harness::slots::{Buffer, Input, Lent, Slots, TABLE};
use crate::inputs::families::FAMILIES;
use crate::inputs::rng::Rng;
use crate::inputs::sample::{Sample, Shape};
use crate::workload::{Load, Measure};
use reference::Reason;
use std::ops::ControlFlow;
use tables::TABLE_A;

/// The table reader.
pub const CALL: Call = Call {
    name: "check",
    about: "the table reader",
    slots: Slots {
        read: &[TABLE],
        numbers: &[],
        buffer: Buffer::None,
    },
    refusals: &[&Reason::OF_TABLE],
    cases: 600_000,
    next: |rng, input| {
        let family = rng.pick(&FAMILIES);
        input.read[0] = family(rng);
    },
    sweep,
    engine: |lent| order_engine::check::fields(lent.read[0]).into(),
    reference: |lent: Lent| reference::validate(lent.read[0]).map(|()| []).into(),
    mistake: |asked| asked.unequal(),
    note: actions::note,
    demands: |demands, _| {
        let demands = demands.total("tables", 300_000).accepted(10_000);
        actions::demands(demands.refused(&Reason::OF_TABLE, 1_000), 100)
    },
};

/// Every byte and every length of some tables.
fn sweep(rng: &mut Rng, each: &mut Each<'_>) -> ControlFlow<()> {
    every_byte(rng, each)?;
    every_length(rng, each)
}

/// Every value of every byte, in table A, in small tables and in a maximal one.
fn every_byte(rng: &mut Rng, each: &mut Each<'_>) -> ControlFlow<()> {
    let mut tables = vec![TABLE_A.to_vec()];
    while tables.len() < 7 {
        let shape = Shape::small(rng);
        let table = Sample::new(rng, shape).bytes;
        if (40..=200).contains(&table.len()) {
            tables.push(table);
        }
    }
    tables.push(Sample::new(rng, Shape::maximal()).bytes);
    let mut input = Input::default();
    for table in tables {
        input.read[0] = table;
        for at in 0..input.read[0].len() {
            let right = input.read[0][at];
            for value in 0..=255 {
                input.read[0][at] = value;
                each(&input)?;
            }
            input.read[0][at] = right;
        }
    }
    ControlFlow::Continue(())
}

/// Tables cut at every length, and longer than they say, past 16 bits too.
fn every_length(rng: &mut Rng, each: &mut Each<'_>) -> ControlFlow<()> {
    let mut tables = vec![TABLE_A.to_vec()];
    for _ in 0..500 {
        let shape = Shape::small(rng);
        tables.push(Sample::new(rng, shape).bytes);
    }
    tables.push(Sample::new(rng, Shape::maximal()).bytes);
    let mut input = Input::default();
    for table in tables {
        let right = table.len();
        let far = [0, right].map(|from| [65_535, 65_536, 65_537].map(|more| from + more));
        for length in (0..right + 20).chain(far.into_iter().flatten()) {
            input.read[0].clone_from(&table);
            input.read[0].resize(length, 0);
            each(&input)?;
        }
    }
    ControlFlow::Continue(())
}

/// Measures it on a load.
pub fn measure(measure: &mut impl Measure, load: &Load) {
    measure.measure(
        CALL.name,
        load,
        |work| usize::from(order_engine::check(&work.table).is_ok()),
        |work| usize::from(reference::validate(&work.table).is_ok()),
    );
}
