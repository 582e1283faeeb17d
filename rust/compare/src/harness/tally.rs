//! What a comparison counts.

use reference::Reason;
use std::collections::BTreeMap;
use std::fmt;
use tables::Kind;

/// The first, a middle or the last entry of a schedule.
pub const PLACES: [&str; 3] = ["first", "middle", "last"];

/// Room for a count of each reason, by its number; index 0 is for accepted.
const NUMBERS: usize = Reason::COUNT + 1;

/// How often each answer was given, and what else was met.
#[derive(Clone, Debug, Default)]
pub struct Tally {
    /// By number; index 0 is for accepted.
    hits: [u64; NUMBERS],
    /// By number, for refusals of a schedule's entry: by the entry's place.
    places: [[u64; 3]; NUMBERS],
    /// By what was met.
    notes: BTreeMap<String, u64>,
    /// By the kinds of two steps.
    kinds: [[u64; Kind::COUNT]; Kind::COUNT],
}

impl Tally {
    /// Counts an answer by its number.
    pub fn count(&mut self, number: u32) {
        self.hits[number as usize] += 1;
    }

    /// Counts where in a schedule of `length` entries a refused one stood.
    pub fn place(&mut self, reason: Reason, index: usize, length: usize) {
        let place = match index {
            0 => 0,
            index if index + 1 == length => 2,
            _ => 1,
        };
        self.places[reason as usize][place] += 1;
    }

    /// Counts something met.
    pub fn note(&mut self, what: &str) {
        match self.notes.get_mut(what) {
            Some(hits) => *hits += 1,
            None => {
                self.notes.insert(what.to_string(), 1);
            }
        }
    }

    /// Counts the kinds of two steps.
    pub fn kinds(&mut self, one: Kind, other: Kind) {
        self.kinds[one as usize][other as usize] += 1;
    }

    /// How often calls accepted.
    pub fn accepted(&self) -> u64 {
        self.hits[0]
    }

    /// How often a reason was given.
    pub fn refused(&self, reason: Reason) -> u64 {
        self.hits[reason as usize]
    }

    /// How often a reason was given at the first, at middle and at the last entries.
    pub fn places(&self, reason: Reason) -> [u64; 3] {
        self.places[reason as usize]
    }

    /// How often something was met.
    pub fn noted(&self, what: &str) -> u64 {
        self.notes.get(what).copied().unwrap_or(0)
    }

    /// How often these two kinds were met.
    pub fn of_kinds(&self, one: Kind, other: Kind) -> u64 {
        self.kinds[one as usize][other as usize]
    }

    /// How many answers were given.
    pub fn total(&self) -> u64 {
        self.hits.iter().sum()
    }
}

impl fmt::Display for Tally {
    fn fmt(&self, f: &mut fmt::Formatter<'_>) -> fmt::Result {
        writeln!(f, "{:<12}{:>12}", "answer", "hits")?;
        writeln!(f, "{:<12}{:>12}", "accepted", self.accepted())?;
        for reason in Reason::ALL {
            let hits = self.refused(reason);
            if hits == 0 {
                continue;
            }
            write!(f, "refused {:<4}{hits:>12}", reason.number())?;
            if self.places(reason) != [0; 3] {
                for (place, hits) in PLACES.iter().zip(self.places(reason)) {
                    write!(f, "{place:>9}{hits:>7}")?;
                }
            }
            writeln!(f)?;
        }
        write!(f, "{:<12}{:>12}", "all", self.total())?;
        for (what, hits) in &self.notes {
            write!(f, "\n  {what:<44}{hits:>9}")?;
        }
        Ok(())
    }
}
