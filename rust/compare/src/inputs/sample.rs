//! Tables made to measure: first a shape, then actions that suit it.

use crate::inputs::mix::Mix;
use crate::inputs::rng::Rng;
use tables::layout::{ACTION, CELLS, MOST, MOST_ACTIONS, first_offset};
use tables::{Action, Field, Kind, Layout, Rest, action};

/// How many of everything a table has.
#[derive(Clone, Debug)]
pub struct Shape {
    /// The number of mailboxes.
    pub mailboxes: u8,
    /// The number of mutexes.
    pub mutexes: u8,
    /// Each actor's number of actions.
    pub counts: Vec<usize>,
}

impl Shape {
    /// Eight of everything and 32 actions for each actor: 2,084 bytes.
    pub fn maximal() -> Self {
        Self {
            mailboxes: MOST,
            mutexes: MOST,
            counts: vec![MOST_ACTIONS; usize::from(MOST)],
        }
    }

    /// One to three actors with up to seven actions each.
    pub fn small(rng: &mut Rng) -> Self {
        let actors = rng.between(1, 3);
        Self {
            mailboxes: rng.between(0, 3) as u8,
            mutexes: rng.between(0, 3) as u8,
            counts: (0..actors).map(|_| rng.between(0, 7)).collect(),
        }
    }

    /// Any shape that a table can have: small, full, or with actors that have nothing to do.
    pub fn any(rng: &mut Rng) -> Self {
        if rng.once_in(3) {
            return Self::small(rng);
        }
        if rng.once_in(20) {
            return Self::maximal();
        }
        let actors = rng.between(1, 8);
        let most = rng.pick(&[1, 4, 8, 32]);
        let count = |rng: &mut Rng| match rng.below(6) {
            0 => 0,
            1 => most,
            _ => rng.between(0, most),
        };
        Self {
            mailboxes: rng.between(0, 8) as u8,
            mutexes: rng.between(0, 8) as u8,
            counts: (0..actors).map(|_| count(rng)).collect(),
        }
    }

    /// A shape with one number too large, or without actors: its table is whole but for that.
    pub fn outsized(rng: &mut Rng) -> Self {
        let mut shape = Self::small(rng);
        match rng.below(5) {
            0 => shape.counts.clear(),
            1 => shape.counts.resize(rng.between(9, 12), 1),
            2 => shape.mailboxes = rng.between(9, 12) as u8,
            3 => shape.mutexes = rng.between(9, 12) as u8,
            _ => {
                let actor = rng.below(shape.counts.len());
                // 256 and more have a low byte that is in range.
                shape.counts[actor] = rng.pick(&[33, 34, 40, 64, 255, 256, 257, 288]);
            }
        }
        shape
    }
}

/// An action's place in a table.
#[derive(Clone, Copy, Debug)]
pub struct Place {
    /// Its number within its actor.
    pub index: usize,
    /// Where its eight bytes begin.
    pub offset: usize,
    /// Where its actor's first action begins.
    pub first: usize,
}

/// A table and the shape that it was made from.
#[derive(Clone, Debug)]
pub struct Sample {
    /// The shape.
    pub shape: Shape,
    /// The table.
    pub bytes: Vec<u8>,
}

impl Sample {
    /// A table of `shape` whose every action is right, all kinds equally often.
    pub fn new(rng: &mut Rng, shape: Shape) -> Self {
        Self::mixed(rng, shape, &Mix::EVEN)
    }

    /// A table of `shape` whose every action is right, with kinds as `mix` has them.
    pub fn mixed(rng: &mut Rng, shape: Shape, mix: &Mix) -> Self {
        let mut scripts = vec![Script::default(); shape.counts.len()];
        for (script, &count) in scripts.iter_mut().zip(&shape.counts) {
            for _ in 0..count {
                script.push(script.draw(rng, &shape, mix));
            }
        }
        Self::of_scripts(shape, scripts)
    }

    /// The table of these actors' actions.
    pub fn of_scripts(shape: Shape, scripts: Vec<Script>) -> Self {
        let layout = Layout {
            mailboxes: shape.mailboxes,
            mutexes: shape.mutexes,
            scripts: scripts.into_iter().map(|script| script.actions).collect(),
        };
        let bytes = layout.bytes();
        Self { shape, bytes }
    }

    /// The place of one of the actions, if there are any.
    pub fn place(&self, rng: &mut Rng) -> Option<Place> {
        let total: usize = self.shape.counts.iter().sum();
        if total == 0 {
            return None;
        }
        let mut index = rng.below(total);
        let mut first = first_offset(self.shape.counts.len());
        for &count in &self.shape.counts {
            if index < count {
                let offset = first + ACTION * index;
                return Some(Place {
                    index,
                    offset,
                    first,
                });
            }
            index -= count;
            first += ACTION * count;
        }
        None
    }
}

/// An actor's actions, and which of them a list may name.
#[derive(Clone, Debug, Default)]
pub struct Script {
    actions: Vec<Action>,
    posts: Vec<u8>,
}

impl Script {
    /// The actions so far.
    pub fn actions(&self) -> &[Action] {
        &self.actions
    }

    /// Appends an action.
    pub fn push(&mut self, action: Action) {
        if is_post(&action) {
            self.posts.push(self.actions.len() as u8);
        }
        self.actions.push(action);
    }

    /// An action that may come next, of a kind that `mix` draws among those possible.
    pub fn draw(&self, rng: &mut Rng, shape: &Shape, mix: &Mix) -> Action {
        loop {
            let kind = mix.kind(rng);
            let limit = match kind.field() {
                Field::Cell => CELLS,
                Field::Mailbox => shape.mailboxes,
                Field::Mutex => shape.mutexes,
            };
            let possible = match kind.rest() {
                Rest::Nothing | Rest::Value | Rest::Cell => true,
                Rest::Communications => !self.posts.is_empty(),
                Rest::Mutexes => shape.mutexes > 0,
            };
            if limit > 0 && possible {
                let p = rng.below(usize::from(limit)) as u8;
                return self.drawn(rng, shape, kind, p);
            }
        }
    }

    /// An action of a kind that is possible.
    fn drawn(&self, rng: &mut Rng, shape: &Shape, kind: Kind, p: u8) -> Action {
        match kind.rest() {
            Rest::Nothing => action::lone(kind, p),
            Rest::Value => action::valued(kind, p, value(rng)),
            Rest::Cell => action::two(kind, p, rng.below(usize::from(CELLS)) as u8),
            Rest::Communications => {
                let list = list(rng, |rng| rng.pick(&self.posts));
                action::listing(kind, p, &list)
            }
            Rest::Mutexes => {
                let list = list(rng, |rng| rng.below(usize::from(shape.mutexes)) as u8);
                action::listing(kind, p, &list)
            }
        }
    }
}

/// Whether an action's bytes are those of a Send or a Receive.
pub fn is_post(bytes: &Action) -> bool {
    action::kind(bytes).is_some_and(|kind| kind.field() == Field::Mailbox)
}

/// The values at which sums and comparisons turn.
pub const CORNERS: [u32; 4] = [0, 1, 1 << 31, u32::MAX];

/// A value, every third a corner.
fn value(rng: &mut Rng) -> u32 {
    match rng.once_in(3) {
        true => rng.pick(&CORNERS),
        false => rng.bits() as u32,
    }
}

/// A list; every fourth repeats one number.
fn list(rng: &mut Rng, mut number: impl FnMut(&mut Rng) -> u8) -> Vec<u8> {
    let length = rng.between(1, action::LONGEST_LIST);
    let mut list: Vec<u8> = (0..length).map(|_| number(rng)).collect();
    if rng.once_in(4) {
        let first = list[0];
        list.fill(first);
    }
    list
}
