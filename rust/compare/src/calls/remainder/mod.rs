//! The remainder of the longer of two recordings: the C struct's numbers, and the slice, by its place in the
//! caller's memory.

mod place;

use crate::calls::lengths;
use crate::harness::answer::Answer;
use crate::harness::asked::Asked;
use crate::harness::call::{Call, Each};
use crate::harness::slots::{Buffer, FIRST_RECORDING, Input, Lent, SECOND_RECORDING, Slots};
use crate::harness::tally::Tally;
use crate::inputs::recordings;
use crate::inputs::rng::Rng;
use reference::Schedule;
use std::ops::ControlFlow;

/// The remainder.
pub const CALL: Call = Call {
    name: "remainder",
    about: "the remainder of the longer recording, and its place in memory",
    slots: Slots {
        read: &[FIRST_RECORDING, SECOND_RECORDING],
        numbers: &[],
        buffer: Buffer::None,
    },
    refusals: &[],
    cases: 200_000,
    next: |rng, input| input.read = slices(recordings::bytes(rng)),
    sweep,
    engine: |lent| ours(lent.read[0], lent.read[1]),
    reference: |lent: Lent| theirs(lent.read[0], lent.read[1]),
    mistake: |asked| asked.unequal().or_else(|| place::mistake(asked)),
    note,
    demands: |demands, _| place::demands(lengths::demands(demands, 100)).accepted(200_000),
};

/// Lengths of which every two are compared.
const LENGTHS: [usize; 16] = [
    0, 1, 2, 3, 4, 5, 8, 31, 32, 33, 255, 256, 257, 65_535, 65_536, 65_537,
];

fn sweep(_: &mut Rng, each: &mut Each<'_>) -> ControlFlow<()> {
    for first in LENGTHS {
        for second in LENGTHS {
            each(&Input {
                read: slices([vec![7; first], vec![7; second]]),
                ..Input::default()
            })?;
        }
    }
    ControlFlow::Continue(())
}

/// Two recordings, as a call reads them.
fn slices([first, second]: [Vec<u8>; 2]) -> [Vec<u8>; 3] {
    [first, second, Vec::new()]
}

/// The proved engine's answer: it has no refusal.
fn ours(first: &[u8], second: &[u8]) -> Answer {
    let left = order_engine::remainder::fields(first, second);
    Ok([left.recording, number(left.from), number(left.length)]).into()
}

/// The reference's answer.
fn theirs(first: &[u8], second: &[u8]) -> Answer {
    let left = reference::remainder(first, second);
    let recording = match left.recording {
        Schedule::First => 1,
        Schedule::Second => 2,
    };
    Ok([recording, number(left.from), number(left.entries.len())]).into()
}

/// A number of an answer. Recordings lent here have far fewer than 2^32 entries, so that one that is
/// larger is wrong, whatever it is.
fn number(n: usize) -> u32 {
    u32::try_from(n).unwrap_or(u32::MAX)
}

fn note(tally: &mut Tally, asked: &Asked) {
    let [first, second, _] = asked.input.slices();
    lengths::note(tally, first, second);
    place::note(tally, asked);
}
