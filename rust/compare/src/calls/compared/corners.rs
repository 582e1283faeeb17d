//! The numbers of pairs that must have been met.

use crate::harness::demands::Demands;
use crate::harness::tally::Tally;
use reference::{Same, quick};

/// The entries of the schedules whose search must have ended at each pair.
const SHORT: usize = 6;
/// The longest schedules for which the answer the other way round is asked.
const LOOKED_AT: usize = 40;

/// An accepted answer about two schedules.
struct Answered<'a> {
    table: &'a [u8],
    first: &'a [u8],
    second: &'a [u8],
    is_same: bool,
    pairs: u32,
}

/// Something that must have been met: in words, and whether it was.
type Corner = (&'static str, fn(&Answered) -> bool);

const CORNERS: [Corner; 10] = [
    ("no entries, 0 pairs", |asked| asked.entries(0)),
    ("an entry each, same, 0 pairs", |asked| {
        asked.entries(1) && asked.is_same
    }),
    ("two entries, different after 1 pair", |asked| {
        asked.entries(2) && asked.ended(1)
    }),
    ("256 entries, different after 1 pair", |asked| {
        asked.entries(256) && asked.ended(1)
    }),
    ("256 entries, different after 32,640 pairs", |asked| {
        asked.entries(256) && asked.ended(32_640)
    }),
    (
        "256 entries, different by the first and the last",
        |asked| asked.entries(256) && asked.ended(32_386),
    ),
    ("256 entries, same after 32,640 pairs", |asked| {
        asked.entries(256) && asked.is_same
    }),
    ("equal lengths, other steps, 0 pairs", |asked| {
        asked.equal_lengths() && asked.of_other_steps()
    }),
    ("other steps after a pair in opposite orders", |asked| {
        let last = asked.first.len().saturating_sub(1);
        asked.equal_lengths() && asked.of_other_steps() && asked.part(last).is_some_and(ended)
    }),
    ("another number the other way round", |asked| {
        asked.pairs > 0
            && !asked.is_same
            && asked.other_way().is_some_and(|pairs| pairs != asked.pairs)
    }),
];

/// Corners of schedules that are compared whole.
const LENGTHS: [Corner; 2] = [
    ("other lengths, the one begins as the other", |asked| {
        let least = asked.least();
        !asked.equal_lengths() && least > 0 && asked.first[..least] == asked.second[..least]
    }),
    ("other lengths after a pair in opposite orders", |asked| {
        !asked.equal_lengths() && asked.part(asked.least()).is_some_and(ended)
    }),
];

impl Answered<'_> {
    /// Whether both have so many entries.
    fn entries(&self, entries: usize) -> bool {
        self.first.len() == entries && self.second.len() == entries
    }

    fn equal_lengths(&self) -> bool {
        self.first.len() == self.second.len()
    }

    /// The length of the shorter.
    fn least(&self) -> usize {
        self.first.len().min(self.second.len())
    }

    /// Whether a pair ended the search, and it is the so-manyth.
    fn ended(&self, pairs: u32) -> bool {
        !self.is_same && self.pairs == pairs
    }

    fn of_other_steps(&self) -> bool {
        self.ended(0)
    }

    /// The answer about the first entries of both.
    fn part(&self, entries: usize) -> Option<Same> {
        quick::same(self.table, &self.first[..entries], &self.second[..entries]).ok()
    }

    /// The number of pairs the other way round, of short schedules.
    fn other_way(&self) -> Option<u32> {
        if self.first.len() > LOOKED_AT {
            return None;
        }
        let answer = quick::same(self.table, self.second, self.first);
        answer.ok().map(|same| same.pairs)
    }
}

/// Whether a pair ended the search.
fn ended(answer: Same) -> bool {
    !answer.is_same && answer.pairs > 0
}

fn ended_at(number: usize) -> String {
    format!("{SHORT} entries, different after {number} pairs")
}

/// What must have been met of schedules of equal lengths, and how often: among them those that end the search
/// at each pair.
pub fn demands(demands: Demands, least: u64) -> Demands {
    let numbers = (1..=SHORT * (SHORT - 1) / 2).map(ended_at);
    demands
        .notes(&CORNERS.map(|(words, _)| words), least)
        .notes(&numbers.collect::<Vec<_>>(), least)
}

/// What must have been met of schedules of other lengths.
pub fn demands_of_lengths(demands: Demands, least: u64) -> Demands {
    demands.notes(&LENGTHS.map(|(words, _)| words), least)
}

/// Notes what an accepted answer about two schedules is.
pub fn note(tally: &mut Tally, [verdict, pairs]: [u32; 2], [table, first, second]: [&[u8]; 3]) {
    let asked = Answered {
        table,
        first,
        second,
        is_same: verdict == 1,
        pairs,
    };
    for (words, met) in CORNERS.into_iter().chain(LENGTHS) {
        if met(&asked) {
            tally.note(words);
        }
    }
    if asked.entries(SHORT) && !asked.is_same && pairs > 0 {
        tally.note(&ended_at(pairs as usize));
    }
}
