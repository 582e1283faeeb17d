//! The pair verdict.

use crate::harness::asked::Asked;
use crate::harness::call::{Call, no_sweep};
use crate::harness::slots::{Buffer, Input, Lent, NUMBERS, Number, Slots, TABLE};
use crate::harness::tally::Tally;
use crate::inputs::contended::{Size, table};
use crate::inputs::families::FAMILIES;
use crate::inputs::rng::Rng;
use crate::workload::{Load, Measure};
use order_engine::{PairVerdict, StepName};
use reference::{Reason, validate};
use tables::{Kind, Layout, action};

/// The pair verdict.
pub const CALL: Call = Call {
    name: "pair",
    about: "the pair verdict",
    slots: Slots {
        read: &[TABLE],
        numbers: &[
            Number::Actor("first actor"),
            Number::Action("first action"),
            Number::Actor("second actor"),
            Number::Action("second action"),
        ],
        buffer: Buffer::None,
    },
    refusals: &[&Reason::OF_TABLE, &[Reason::NoStep]],
    cases: 600_000,
    next,
    sweep: no_sweep,
    engine: |lent| {
        let [one, other] = steps_of(lent.numbers);
        order_engine::pair::fields(lent.read[0], one, other).into()
    },
    reference: |lent: Lent| {
        let [one, other] = steps_of(lent.numbers);
        let answer = reference::pair(
            lent.read[0],
            one.actor,
            one.action,
            other.actor,
            other.action,
        );
        answer.map(|dependent| [u32::from(dependent)]).into()
    },
    mistake: |asked| asked.unequal(),
    note,
    demands: |demands, _| {
        let all = Kind::ALL.map(|one| Kind::ALL.map(|other| (one, other)));
        demands
            .total("pairs", 200_000)
            .refused(&Reason::OF_TABLE, 200)
            .refused(&[Reason::NoStep], 10_000)
            .notes(&[OWN, DEPENDENT, INDEPENDENT], 10_000)
            .kinds(all.into_iter().flatten(), 100)
            .notes(&OWN_NOTE, 100)
    },
};

/// How many pairs are asked of one table, about.
const PAIRS: usize = 12;

const OWN: &str = "dependent: one actor";
const OWN_NOTE: [&str; 3] = [
    "one actor: a Note, then another step",
    "one actor: another step, then a Note",
    "one actor: two Notes",
];
const DEPENDENT: &str = "dependent: two actors";
const INDEPENDENT: &str = "independent";

/// The two names that four numbers are, each of which was a byte.
fn steps_of(numbers: [u32; NUMBERS]) -> [StepName; 2] {
    let [a, k, b, l] = numbers.map(|number| number as u8);
    [StepName::new(a, k), StepName::new(b, l)]
}

/// Two steps, mostly of the table before; of one that is refused, once.
fn next(rng: &mut Rng, input: &mut Input) {
    if validate(&input.read[0]).is_err() || rng.once_in(PAIRS) {
        input.read[0] = made(rng);
    }
    let names = steps(rng, &input.read[0]).map(|step| [step.actor, step.action]);
    input.numbers = std::array::from_fn(|at| u32::from(names.as_flattened()[at]));
}

/// A table: mostly right, and contended.
fn made(rng: &mut Rng) -> Vec<u8> {
    if rng.once_in(4) {
        let family = rng.pick(&FAMILIES);
        return family(rng);
    }
    let size = rng.pick(&[Size::Small, Size::Small, Size::Large, Size::Maximal]);
    table(rng, size).0.bytes
}

/// Two names: mostly of steps of two actors, some not in the table.
fn steps(rng: &mut Rng, table: &[u8]) -> [StepName; 2] {
    let one = step(rng, table);
    let other = loop {
        let other = step(rng, table);
        if other.actor != one.actor || rng.once_in(8) {
            break other;
        }
    };
    match rng.below(24) {
        0 => [one, one],
        1 => [beside(rng, table, one), other],
        2 => [one, beside(rng, table, other)],
        _ => [one, other],
    }
}

/// A name that is in the table, if its actor has actions.
fn step(rng: &mut Rng, table: &[u8]) -> StepName {
    let actor = rng.below(usize::from(actors(table).clamp(1, 8)));
    let count = usize::from(count(table, actor as u8).clamp(1, 32));
    StepName::new(actor as u8, rng.below(count) as u8)
}

/// A name that is not in the table; the low bits of some name one that is.
fn beside(rng: &mut Rng, table: &[u8], step: StepName) -> StepName {
    let StepName { actor, action } = step;
    let (actors, count) = (actors(table), count(table, actor));
    let (actor, action) = match rng.below(6) {
        0 => (actors, action),
        1 => (actor.wrapping_add(rng.pick(&[8, 32, 128])), action),
        2 => (255, 255),
        3 | 4 => (actor, count),
        _ => (actor, action.wrapping_add(rng.pick(&[32, 64, 128]))),
    };
    StepName::new(actor, action)
}

/// What the byte says where a right table has its number of actors; tables may be spoilt.
fn actors(table: &[u8]) -> u8 {
    table.get(1).copied().unwrap_or(0)
}

/// Likewise of an actor's number of actions.
fn count(table: &[u8], actor: u8) -> u8 {
    table.get(6 + 4 * usize::from(actor)).copied().unwrap_or(0)
}

/// Notes a verdict, and the kinds that stood against one another.
fn note(tally: &mut Tally, asked: &Asked) {
    if !asked.accepted() {
        return;
    }
    let [one, other] = steps_of(asked.input.numbers);
    let dependent = asked.reference.values[0] == 1;
    tally.note(match (dependent, one.actor == other.actor) {
        (true, true) => OWN,
        (true, false) => DEPENDENT,
        (false, _) => INDEPENDENT,
    });
    let layout = Layout::of(&asked.input.read[0]).expect("the table is accepted");
    let kind = |step: StepName| {
        let bytes = layout.action(step.actor, step.action);
        bytes.and_then(action::kind).expect("the step is there")
    };
    let kinds = (kind(one), kind(other));
    if one.actor != other.actor {
        tally.kinds(kinds.0, kinds.1);
        return;
    }
    let [then_another, then_note, both] = OWN_NOTE;
    match kinds {
        (Kind::Note, Kind::Note) => tally.note(both),
        (Kind::Note, _) => tally.note(then_another),
        (_, Kind::Note) => tally.note(then_note),
        _ => {}
    }
}

/// Measures it on a load.
pub fn measure(measure: &mut impl Measure, load: &Load) {
    measure.measure(
        CALL.name,
        load,
        |work| {
            let [one, other] = work.steps;
            let verdict = order_engine::pair(&work.table, one, other);
            usize::from(verdict == Ok(PairVerdict::Dependent))
        },
        |work| {
            let [one, other] = work.steps;
            let (a, k, b, l) = (one.actor, one.action, other.actor, other.action);
            usize::from(reference::pair(&work.table, a, k, b, l) == Ok(true))
        },
    );
}
