//! What a comparison must have met to mean something.

use crate::harness::tally::{PLACES, Tally};
use reference::Reason;
use tables::Kind;

/// What a comparison demands to have met.
pub struct Demands<'a> {
    tally: &'a Tally,
    short: Vec<String>,
}

impl<'a> Demands<'a> {
    /// Nothing demanded yet.
    pub fn of(tally: &'a Tally) -> Self {
        Self {
            tally,
            short: Vec::new(),
        }
    }

    /// So many answers in all.
    pub fn total(self, what: &str, least: u64) -> Self {
        let total = self.tally.total();
        self.least(what, total, least)
    }

    /// So many accepted ones.
    pub fn accepted(self, least: u64) -> Self {
        let hits = self.tally.accepted();
        self.least("accepted", hits, least)
    }

    /// So many of each of these refusals.
    pub fn refused(mut self, reasons: &[Reason], least: u64) -> Self {
        for &reason in reasons {
            let hits = self.tally.refused(reason);
            self = self.least(&refused(reason), hits, least);
        }
        self
    }

    /// So many of each of these refusals at the first, at middle and at the last entries. No total runs
    /// over at the first: all cells are 0 before it.
    pub fn places(mut self, reasons: &[Reason], least: u64) -> Self {
        for &reason in reasons {
            let over = matches!(reason, Reason::Over | Reason::SecondOver);
            let places = PLACES.iter().zip(self.tally.places(reason));
            for (place, hits) in places.skip(usize::from(over)) {
                let what = format!("{}, {place} entry", refused(reason));
                self = self.least(&what, hits, least);
            }
        }
        self
    }

    /// So many of what was noted.
    pub fn notes<T: AsRef<str>>(mut self, whats: &[T], least: u64) -> Self {
        for what in whats {
            let hits = self.tally.noted(what.as_ref());
            self = self.least(what.as_ref(), hits, least);
        }
        self
    }

    /// So many of each of these pairs of kinds.
    pub fn kinds(mut self, pairs: impl IntoIterator<Item = (Kind, Kind)>, least: u64) -> Self {
        for (one, other) in pairs {
            let hits = self.tally.of_kinds(one, other);
            let what = format!("{} against {}", one.name(), other.name());
            self = self.least(&what, hits, least);
        }
        self
    }

    /// Each of these refusals at least once, and no other.
    pub fn only(mut self, reasons: &[&[Reason]]) -> Self {
        for reason in Reason::ALL {
            let hits = self.tally.refused(reason);
            if reasons.iter().any(|part| part.contains(&reason)) {
                self = self.least(&refused(reason), hits, 1);
            } else if hits > 0 {
                let what = refused(reason);
                self.short
                    .push(format!("{what}: {hits}, which is not the call's"));
            }
        }
        self
    }

    /// `hits` of something, at least `least`.
    pub fn least(mut self, what: &str, hits: u64, least: u64) -> Self {
        if hits < least {
            self.short
                .push(format!("{what}: {hits}, fewer than {least}"));
        }
        self
    }

    /// What was met too seldom, in words.
    pub fn short(self) -> Vec<String> {
        self.short
    }
}

fn refused(reason: Reason) -> String {
    format!("refused {}", reason.number())
}
