//! What a comparison knows of a call.

use crate::harness::answer::Answer;
use crate::harness::asked::Asked;
use crate::harness::demands::Demands;
use crate::harness::slots::{Input, Lent, Slots};
use crate::harness::tally::Tally;
use crate::inputs::rng::Rng;
use reference::Reason;
use std::ops::ControlFlow;

/// One of the calls.
pub struct Call {
    /// Its name.
    pub name: &'static str,
    /// What is compared.
    pub about: &'static str,
    /// What it takes.
    pub slots: Slots,
    /// Its refusals, in the order in which it looks for them.
    pub refusals: &'static [&'static [Reason]],
    /// How many random inputs a comparison makes unless told otherwise.
    pub cases: usize,
    /// Makes the input after this one.
    pub next: fn(&mut Rng, &mut Input),
    /// Goes through inputs that come before the random ones.
    pub sweep: fn(&mut Rng, &mut Each<'_>) -> ControlFlow<()>,
    /// The proved engine's call.
    pub engine: fn(Lent<'_>) -> Answer,
    /// The reference's.
    pub reference: fn(Lent<'_>) -> Answer,
    /// What is wrong with the engine's answer and what it wrote, if anything.
    pub mistake: fn(&Asked) -> Option<String>,
    /// Notes what was met.
    pub note: fn(&mut Tally, &Asked),
    /// What a comparison should have met, besides each refusal.
    pub demands: for<'a> fn(Demands<'a>, &Tally) -> Demands<'a>,
}

/// What is done with each input; breaks at a difference.
pub type Each<'a> = dyn FnMut(&Input) -> ControlFlow<()> + 'a;

/// For the calls whose inputs are all random.
pub fn no_sweep(_: &mut Rng, _: &mut Each<'_>) -> ControlFlow<()> {
    ControlFlow::Continue(())
}

impl Call {
    /// Goes through `cases` random inputs that a seed determines.
    pub fn random(&self, seed: u64, cases: usize, each: &mut Each<'_>) -> ControlFlow<()> {
        let mut rng = Rng::new(seed);
        let mut input = Input::default();
        for _ in 0..cases {
            (self.next)(&mut rng, &mut input);
            each(&input)?;
        }
        ControlFlow::Continue(())
    }

    /// What a comparison should have met and did not, in words.
    pub fn shortfalls(&self, tally: &Tally) -> Vec<String> {
        let demands = Demands::of(tally).only(self.refusals);
        (self.demands)(demands, tally).short()
    }

    /// Whether it gives this refusal.
    pub fn refuses(&self, reason: Reason) -> bool {
        self.refusals.iter().any(|part| part.contains(&reason))
    }
}
