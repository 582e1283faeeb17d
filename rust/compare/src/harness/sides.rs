//! Both engines asked.

use crate::harness::asked::Asked;
use crate::harness::call::Call;
use crate::harness::difference::Difference;
use crate::harness::panics::caught;
use crate::harness::slots::{Input, Memory, Role};
use crate::harness::tally::Tally;
use crate::inputs::rng::Rng;
use reference::Reason;
use std::ops::ControlFlow;

/// Nothing, or a difference.
pub type Outcome = Result<(), Box<Difference>>;

/// The memory of both engines.
pub struct Sides<M> {
    ours: M,
    theirs: Input,
}

impl<M: Memory> Sides<M> {
    /// The proved engine works in `ours`, the reference in ordinary memory.
    pub fn new(ours: M) -> Self {
        Self {
            ours,
            theirs: Input::default(),
        }
    }

    /// Asks both engines, and counts what was met.
    pub fn ask(&mut self, call: &'static Call, input: &Input, tally: &mut Tally) -> Outcome {
        self.ours.hold(input);
        self.theirs.hold(input);
        let mut answers = None;
        let asked = caught(|| {
            let engine = (call.engine)(self.ours.lent());
            let reference = (call.reference)(self.theirs.lent());
            answers = Some((engine, reference));
            let asked = Asked {
                input,
                engine,
                reference,
                ours: self.ours.lent(),
                theirs: self.theirs.lent(),
            };
            let touched = asked.touched(&call.slots);
            let mistake = touched.or_else(|| (call.mistake)(&asked));
            if mistake.is_none() {
                count(call, tally, &asked);
            }
            mistake
        });
        let mistake = match asked {
            Ok(None) => return Ok(()),
            Ok(Some(mistake)) => mistake,
            Err(panic) => panic,
        };
        Err(Box::new(Difference {
            call,
            input: input.clone(),
            answers,
            mistake,
        }))
    }
}

/// Counts the answer, for a refused entry where in its schedule it stood, and what the call notes.
fn count(call: &Call, tally: &mut Tally, asked: &Asked) {
    let answer = asked.reference;
    tally.count(answer.refusal);
    if let Some(reason) = Reason::of(answer.refusal) {
        let role = match reason {
            _ if Reason::OF_FIRST.contains(&reason) => Some(Role::First),
            _ if Reason::OF_SECOND.contains(&reason) => Some(Role::Second),
            _ => None,
        };
        if let Some(slot) = role.and_then(|role| call.slots.index(role)) {
            let length = asked.input.read[slot].len();
            tally.place(reason, answer.position as usize, length);
        }
    }
    (call.note)(tally, asked);
}

/// Compares on the swept inputs, then on `cases` random ones; a seed determines all.
pub fn compare(call: &'static Call, seed: u64, cases: usize) -> Result<Tally, Box<Difference>> {
    let mut sides = Sides::new(Input::default());
    let mut tally = Tally::default();
    first_of(
        |each| {
            (call.sweep)(&mut Rng::new(!seed), each)?;
            call.random(seed, cases, each)
        },
        &mut |input| sides.ask(call, input, &mut tally),
    )?;
    Ok(tally)
}

/// Goes through `cases` random inputs that a seed determines.
pub fn random(
    call: &'static Call,
    seed: u64,
    cases: usize,
    ask: &mut dyn FnMut(&Input) -> Outcome,
) -> Outcome {
    first_of(|each| call.random(seed, cases, each), ask)
}

/// The first difference that `ask` finds on the inputs that `through` goes through.
fn first_of(
    through: impl FnOnce(&mut dyn FnMut(&Input) -> ControlFlow<()>) -> ControlFlow<()>,
    ask: &mut dyn FnMut(&Input) -> Outcome,
) -> Outcome {
    let mut found = Ok(());
    let _ = through(&mut |input| match ask(input) {
        Ok(()) => ControlFlow::Continue(()),
        difference => {
            found = difference;
            ControlFlow::Break(())
        }
    });
    found
}

/// The difference on one input, if the engines differ on it.
pub fn difference(call: &'static Call, input: &Input) -> Option<Box<Difference>> {
    let mut sides = Sides::new(Input::default());
    sides.ask(call, input, &mut Tally::default()).err()
}
