//! What the benchmark measures: each call on small, typical and maximal tables, and on tables with Notes.

use crate::inputs::contended::grown;
use crate::inputs::interleave::{by_actor, opposed_at};
use crate::inputs::mix::Mix;
use crate::inputs::rng::Rng;
use crate::inputs::sample::Shape;
use order_engine::StepName;
use reference::trace::Trace;
use reference::{SCHEDULE_MOST, Schedule, Table, check, draw};
use tables::{Kind, TABLE_A};

/// How many different tables a measurement goes through, where it is more than one.
const TABLES: usize = 16;

/// The last kind of document 01. The first loads have no other, so that the figures of all landings are of
/// the same tables.
const LAST_PLAIN: Kind = Kind::MutexWait;

/// What a call is given: a table, two same schedules that run it to its end, two of its steps, and a seed.
#[derive(Clone, Debug)]
pub struct Work {
    /// The table.
    pub table: Vec<u8>,
    /// The first schedule.
    pub first: Vec<u8>,
    /// The same steps, lower actors' as early as can be.
    pub second: Vec<u8>,
    /// The steps of [`Self::part`] likewise: a recording that begins as the first schedule does.
    pub begun: Vec<u8>,
    /// The same steps with one dependent pair in the opposite order, the earliest that can be. None where no
    /// pair can.
    pub early: Option<Vec<u8>>,
    /// The same with the latest that can be.
    pub late: Option<Vec<u8>>,
    /// A step of the first actor and one of the last.
    pub steps: [StepName; 2],
    /// The least seed whose drawn schedule runs every action.
    pub seed: u32,
}

impl Work {
    /// Three quarters of the first schedule: actors are left.
    pub fn part(&self) -> &[u8] {
        part(&self.first)
    }
}

fn part(schedule: &[u8]) -> &[u8] {
    &schedule[..schedule.len() / 4 * 3]
}

/// Inputs that are measured together, one after the other.
pub struct Load {
    /// What they are.
    pub name: &'static str,
    /// The inputs.
    pub works: Vec<Work>,
}

/// The loads, the same ones every time.
pub fn loads() -> Vec<Load> {
    let mut rng = Rng::new(2);
    let typical = || Shape {
        mailboxes: 2,
        mutexes: 2,
        counts: vec![8; 4],
    };
    let plain = [Mix::EVEN, Mix::CONTENDED].map(|mix| mix.up_to(LAST_PLAIN));
    let maximal = made(&mut rng, Shape::maximal, plain);
    vec![
        Load {
            name: "small",
            works: vec![Work {
                table: TABLE_A.to_vec(),
                first: vec![0, 0, 1, 1],
                second: vec![1, 0, 0, 1],
                begun: vec![1, 0, 0],
                early: None,
                late: None,
                steps: [StepName::new(0, 1), StepName::new(1, 1)],
                seed: 0,
            }],
        },
        Load {
            name: "typical",
            works: made(&mut rng, typical, plain),
        },
        Load {
            name: "maximal",
            works: maximal.clone(),
        },
        Load {
            name: "one maximal",
            works: maximal[..1].to_vec(),
        },
        Load {
            name: "with Notes",
            works: made(&mut rng, typical, [Mix::NOTES, Mix::CONTENDED]),
        },
    ]
}

/// Tables of a shape, made along schedules that run them to their end, with kinds as each mix in turn has them.
fn made(rng: &mut Rng, shape: impl Fn() -> Shape, mixes: [Mix; 2]) -> Vec<Work> {
    let mixes = mixes.into_iter().cycle();
    let works = mixes.take(TABLES).map(|mix| {
        let (sample, first) = grown(rng, shape(), &mix);
        let counts = &sample.shape.counts;
        let last = |actor: usize| StepName::new(actor as u8, counts[actor] as u8 - 1);
        let steps = [last(0), last(counts.len() - 1)];
        let checked = check(&sample.bytes).expect("the table is right");
        let second = by_actor(&checked, &first);
        let begun = by_actor(&checked, part(&first));
        let [early, late] = differing(&checked, &first);
        let seed = running_all(&sample.bytes, first.len());
        Work {
            table: sample.bytes,
            first,
            second,
            begun,
            early,
            late,
            steps,
            seed,
        }
    });
    works.collect()
}

/// Schedules with one dependent pair of the first in the opposite order: the first such pair by rising later
/// entry, then by rising earlier entry, and the last; each with lower actors' steps as early as can be.
fn differing(table: &Table, first: &[u8]) -> [Option<Vec<u8>>; 2] {
    let trace = Trace::of(table, Schedule::First, first).expect("the schedule is accepted");
    let at = |(i, j)| opposed_at(table, trace.names(), i, j);
    let pairs = (0..first.len()).flat_map(|j| (0..j).map(move |i| (i, j)));
    let ends = [pairs.clone().find_map(at), pairs.rev().find_map(at)];
    ends.map(|other| Some(by_actor(table, &other?)))
}

/// The least seed whose drawn schedule has so many entries.
fn running_all(table: &[u8], entries: usize) -> u32 {
    let runs = |&seed: &u32| draw(table, seed, &mut [0; SCHEDULE_MOST]) == Ok(entries);
    (0..1_000).find(runs).expect("a seed runs every action")
}

/// What is done with a call on a load. Both engines answer with a number that they must agree on.
pub trait Measure {
    /// Measures one call on one load.
    fn measure(
        &mut self,
        call: &'static str,
        load: &Load,
        engine: impl FnMut(&Work) -> usize,
        reference: impl FnMut(&Work) -> usize,
    );
}
