//! Refusals 1 to 5: what the header and the directory say, against what is there.

use crate::length::Length;
use crate::words::count;
use std::ops::RangeInclusive;
use tables::layout::{ACTION, EDITION, ENTRY, HEADER, MOST, MOST_ACTIONS, first_offset};
use tables::text::looks_like_text;

/// The counts of a header, and their ranges.
const COUNTS: [(&str, RangeInclusive<u8>); 3] = [
    ("actors", 1..=MOST),
    ("mailboxes", 0..=MOST),
    ("mutexes", 0..=MOST),
];

/// What is wrong in a directory.
pub(super) enum Fault {
    /// It ends after this many bytes of the file.
    Cut(usize),
    /// An actor's actions do not begin where those before end.
    Offset {
        /// The actor.
        actor: usize,
        /// What the entry says.
        said: usize,
        /// Where they begin.
        right: usize,
    },
    /// An actor has too many actions.
    Many {
        /// The actor.
        actor: usize,
        /// What the entry says.
        said: usize,
    },
}

/// Refusal 1.
pub(super) fn length(table: &[u8]) -> String {
    let bytes = count(table.len(), "byte", "bytes");
    let hint = text(table);
    format!("the file has {bytes}, a header has {HEADER}\n{hint}")
}

/// Refusal 2.
pub(super) fn edition(table: &[u8]) -> String {
    let said = table.first().copied().unwrap_or_default();
    let hint = text(table);
    format!("the first byte is {said}, the edition is {EDITION}\n{hint}")
}

/// A line for a file that is no table but the text of one. Its first byte is not the edition.
fn text(table: &[u8]) -> &'static str {
    match looks_like_text(table) {
        true => "this looks like a text: order build makes a table of it\n",
        false => "",
    }
}

/// Refusal 3.
pub(super) fn counts(table: &[u8]) -> String {
    let wrong = wrong_counts(table).map(|(place, said)| {
        let (name, range) = &COUNTS[place];
        let (least, most) = (range.start(), range.end());
        format!("the header says {said} {name}, a table has {least} to {most}\n")
    });
    wrong.collect()
}

/// The counts that are out of their range: the place among the counts, and what the header says.
pub(super) fn wrong_counts(table: &[u8]) -> impl Iterator<Item = (usize, u8)> {
    let said = table.iter().skip(1).copied().zip(&COUNTS).enumerate();
    let wrong = said.filter(|(_, (said, (_, range)))| !range.contains(said));
    wrong.map(|(place, (said, _))| (place, said))
}

/// Refusal 4.
pub(super) fn directory(table: &[u8]) -> String {
    match fault(table) {
        Some(Fault::Cut(wanted)) => {
            let length = table.len();
            format!("header and directory have {wanted} bytes, the file has {length}\n")
        }
        Some(Fault::Offset { actor, said, right }) => {
            format!("actor {actor}'s entry says offset {said}, its actions begin at {right}\n")
        }
        Some(Fault::Many { actor, said }) => {
            format!(
                "actor {actor}'s entry says {said} actions, an actor has at most {MOST_ACTIONS}\n"
            )
        }
        None => String::new(),
    }
}

/// The first thing that is wrong in the directory.
pub(super) fn fault(table: &[u8]) -> Option<Fault> {
    let actors = usize::from(*table.get(1)?);
    let mut right = first_offset(actors);
    let Some(entries) = table.get(HEADER..right) else {
        return Some(Fault::Cut(right));
    };
    for (actor, (offset, actions)) in self::entries(entries).enumerate() {
        if offset != right {
            let said = offset;
            return Some(Fault::Offset { actor, said, right });
        }
        if actions > MOST_ACTIONS {
            let said = actions;
            return Some(Fault::Many { actor, said });
        }
        right += ACTION * actions;
    }
    None
}

/// Refusal 5.
pub(super) fn end(table: &[u8], length: Length) -> String {
    let actors = table.get(1).map_or(0, |&actors| usize::from(actors));
    let first = first_offset(actors);
    let listed = self::entries(table.get(HEADER..first).unwrap_or_default());
    let end = listed.fold(first, |end, (_, actions)| end + ACTION * actions);
    format!("the last action ends after {end} bytes, the file has {length}\n")
}

/// Offset and number of actions of each entry.
fn entries(directory: &[u8]) -> impl Iterator<Item = (usize, usize)> {
    let (entries, _) = directory.as_chunks::<ENTRY>();
    entries.iter().map(|&[a, b, c, d]| {
        let [offset, actions] = [[a, b], [c, d]].map(u16::from_le_bytes);
        (offset.into(), actions.into())
    })
}
