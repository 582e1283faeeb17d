//! What the longer of two recordings has left: an entry is taken off the front of each until one has
//! none.

use crate::follow::Schedule;

/// What is left of a recording.
#[derive(Clone, Copy, PartialEq, Eq, Debug)]
pub struct Remainder<'a> {
    /// The recording that it is of.
    pub recording: Schedule,
    /// The index at which it begins there.
    pub from: usize,
    /// The entries, where the recording has them.
    pub entries: &'a [u8],
}

/// What is left of the longer recording; where both end together the end of the first.
pub fn remainder<'a>(mut first: &'a [u8], mut second: &'a [u8]) -> Remainder<'a> {
    let mut from = 0;
    while let ([_, firsts @ ..], [_, seconds @ ..]) = (first, second) {
        (first, second) = (firsts, seconds);
        from += 1;
    }
    let (recording, entries) = match second {
        [] => (Schedule::First, first),
        [_, ..] => (Schedule::Second, second),
    };
    Remainder {
        recording,
        from,
        entries,
    }
}
