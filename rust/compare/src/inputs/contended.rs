//! Tables whose mailboxes and mutexes are contended, for stepping.

use crate::inputs::mix::Mix;
use crate::inputs::rng::Rng;
use crate::inputs::sample::{Sample, Script, Shape};
use crate::inputs::totals;
use reference::{Action, Site};
use tables::{Kind, action};

/// How large a table is made.
#[derive(Clone, Copy, PartialEq, Eq, Debug)]
pub enum Size {
    /// Two or three actors and seven actions at most in all.
    Tiny,
    /// Up to four actors with up to eight actions each.
    Small,
    /// Up to eight actors with up to 32 actions each.
    Large,
    /// Eight actors with 32 actions each, every other time with eight mailboxes and mutexes.
    Maximal,
}

impl Size {
    /// Mostly small.
    pub fn any(rng: &mut Rng) -> Self {
        match rng.below(40) {
            0..12 => Self::Tiny,
            12..26 => Self::Small,
            26..37 => Self::Large,
            _ => Self::Maximal,
        }
    }

    /// A shape of this size, mostly with few mailboxes and mutexes.
    pub fn shape(self, rng: &mut Rng) -> Shape {
        let counts = match self {
            Self::Tiny => tiny(rng),
            Self::Small => {
                let actors = rng.between(1, 4);
                (0..actors).map(|_| rng.between(0, 8)).collect()
            }
            Self::Large => {
                let actors = rng.between(2, 8);
                let most = rng.pick(&[8, 16, 32]);
                (0..actors).map(|_| rng.between(most / 2, most)).collect()
            }
            Self::Maximal => vec![32; 8],
        };
        if self == Self::Maximal && rng.once_in(2) {
            return Shape::maximal();
        }
        Shape {
            mailboxes: few(rng),
            mutexes: few(rng),
            counts,
        }
    }
}

/// Two or three actors' numbers of actions, seven at most in all.
fn tiny(rng: &mut Rng) -> Vec<usize> {
    let mut counts = vec![0; rng.between(2, 3)];
    for _ in 0..rng.between(2, 7) {
        let actor = rng.below(counts.len());
        counts[actor] += 1;
    }
    counts
}

/// A number of mailboxes or mutexes.
fn few(rng: &mut Rng) -> u8 {
    rng.pick(&[0, 1, 1, 1, 1, 2, 2, 3, 5, 8])
}

/// A table of a size, and a schedule that runs it to its end if it was made along one.
pub fn table(rng: &mut Rng, size: Size) -> (Sample, Option<Vec<u8>>) {
    let shape = size.shape(rng);
    if rng.once_in(8) {
        return (totals::table(rng, shape), None);
    }
    let mut mix = rng.pick(&Mix::ALL);
    // Without Notes more can be exchanged: the longest routes are those of large tables.
    let times = match size {
        Size::Tiny | Size::Small => 3,
        Size::Large | Size::Maximal => 2,
    };
    if rng.once_in(times) {
        mix = mix.without(Kind::Note);
    }
    if rng.once_in(2) {
        let (sample, schedule) = grown(rng, shape, &mix);
        return (sample, Some(schedule));
    }
    (Sample::mixed(rng, shape, &mix), None)
}

/// A table made step by step along a schedule, which it so accepts: every action is drawn where the
/// schedule comes to it, a wait or an Add only where it is ready.
pub fn grown(rng: &mut Rng, shape: Shape, mix: &Mix) -> (Sample, Vec<u8>) {
    let mut scripts = vec![Script::default(); shape.counts.len()];
    let mut left = shape.counts.clone();
    let mut schedule = Vec::new();
    let mut site = Site::fresh();
    loop {
        let open: Vec<usize> = (0..left.len()).filter(|&actor| left[actor] > 0).collect();
        if open.is_empty() {
            return (Sample::of_scripts(shape, scripts), schedule);
        }
        let actor = rng.pick(&open);
        let action = ready_action(rng, &shape, mix, &scripts[actor], &site, actor);
        assert!(site.step(actor, &Action::decode(action)).is_taken());
        scripts[actor].push(action);
        left[actor] -= 1;
        schedule.push(actor as u8);
    }
}

/// An action that is ready as the next of `actor`.
fn ready_action(
    rng: &mut Rng,
    shape: &Shape,
    mix: &Mix,
    script: &Script,
    site: &Site,
    actor: usize,
) -> tables::Action {
    for _ in 0..20 {
        let action = script.draw(rng, shape, mix);
        if site.next(actor, &Action::decode(action)).is_taken() {
            return action;
        }
    }
    action::set(1, 9)
}
