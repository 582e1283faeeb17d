//! The steps of two schedules: the first's with their footprints, the second's by name.

use crate::follow::{Schedule, follow};
use crate::footprint::Footprint;
use crate::name::Name;
use crate::refusal::Refusal;
use crate::site::Site;
use crate::table::Table;

/// The first schedule's steps.
pub struct First {
    length: usize,
    names: [Name; Name::COUNT],
    footprints: [Footprint; Name::COUNT],
}

impl First {
    pub fn of(table: &Table, entries: &[u8]) -> Result<Self, Refusal> {
        let mut steps = Self {
            length: 0,
            names: [Name::default(); Name::COUNT],
            footprints: [Footprint::default(); Name::COUNT],
        };
        let mut site = Site::fresh();
        follow(
            table,
            Schedule::First,
            entries,
            &mut site,
            |name, action| {
                steps.names[steps.length] = name;
                steps.footprints[steps.length] = Footprint::of(table, name, action);
                steps.length += 1;
            },
        )?;
        Ok(steps)
    }

    pub fn names(&self) -> &[Name] {
        &self.names[..self.length]
    }

    pub fn footprints(&self) -> &[Footprint] {
        &self.footprints[..self.length]
    }
}

/// No place.
const ABSENT: u16 = u16::MAX;

/// The second schedule's steps, and by name their places.
pub struct Second {
    length: usize,
    names: [Name; Name::COUNT],
    places: [u16; Name::COUNT],
}

impl Second {
    pub fn of(table: &Table, entries: &[u8]) -> Result<Self, Refusal> {
        let mut steps = Self {
            length: 0,
            names: [Name::default(); Name::COUNT],
            places: [ABSENT; Name::COUNT],
        };
        let mut site = Site::fresh();
        follow(table, Schedule::Second, entries, &mut site, |name, _| {
            steps.names[steps.length] = name;
            steps.places[name.index()] = steps.length as u16;
            steps.length += 1;
        })?;
        Ok(steps)
    }

    pub fn names(&self) -> &[Name] {
        &self.names[..self.length]
    }

    /// For each step of the first its place here; none where lengths or names differ.
    pub fn places(&self, first: &First) -> Option<[u16; Name::COUNT]> {
        if first.length != self.length {
            return None;
        }
        let mut places = [ABSENT; Name::COUNT];
        for (place, name) in places.iter_mut().zip(first.names()) {
            *place = self.places[name.index()];
            if *place == ABSENT {
                return None;
            }
        }
        Some(places)
    }
}
