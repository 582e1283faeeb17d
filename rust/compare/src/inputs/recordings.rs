//! Recordings, which need not end together: one of them, or neither, has entries after the other's length.

use crate::inputs::contended::{Size, grown, table};
use crate::inputs::entries::{Place, fault, spoilt, tail};
use crate::inputs::interleave::{exchanged, interleaved, twisted};
use crate::inputs::mix::Mix;
use crate::inputs::rng::Rng;
use crate::inputs::sample::Shape;
use crate::inputs::steps::suited;
use crate::inputs::twins::Twins;
use crate::inputs::walk::{Walk, accepted};
use reference::{Table, check};

/// A table and two recordings of any sort: same or different as far as both go, or refused.
pub fn any(rng: &mut Rng) -> Twins {
    match rng.below(66) {
        0..7 => Twins::damaged(rng),
        7..14 => Twins::any(rng),
        14..38 => begun(rng).either_way(rng),
        38..63 => with_bad_entry(rng).either_way(rng),
        63..65 => Twins::locked(rng),
        _ => long(rng).either_way(rng),
    }
}

/// A schedule that goes on, mostly, after a beginning of it that the other recording has altered.
fn begun(rng: &mut Rng) -> Twins {
    let size = Size::any(rng);
    let (sample, known) = table(rng, size);
    let checked = check(&sample.bytes).expect("the table is right");
    let mut first = accepted(rng, &checked, known);
    let rest = first.split_off(rng.between(0, first.len()));
    let second = altered(rng, &checked, &first);
    if !rng.once_in(4) {
        first.extend(tail(rng, &checked, &rest));
    }
    Twins {
        table: sample.bytes,
        first,
        second,
    }
}

/// The same steps in another order, same or different.
fn altered(rng: &mut Rng, table: &Table, schedule: &[u8]) -> Vec<u8> {
    let altered = match rng.below(5) {
        0 | 1 => twisted(rng, table, schedule),
        2 => interleaved(rng, table, schedule),
        _ => None,
    };
    altered.unwrap_or_else(|| exchanged(rng, table, schedule))
}

/// A bad entry in the first recording, if the table allows it; the second ends before that entry, with it or
/// after it. Either may have a tail.
fn with_bad_entry(rng: &mut Rng) -> Twins {
    let (fault, place) = fault(rng);
    let (sample, known) = suited(rng, fault, place);
    let checked = check(&sample.bytes).expect("the table is right");
    let way = accepted(rng, &checked, known);
    let made = match place {
        Place::First => spoilt(rng, &checked, &way, fault, place).map(|bad| vec![bad[0]]),
        _ => spoilt(rng, &checked, &way, fault, Place::Last),
    };
    let mut first = made.unwrap_or(way);
    let good = first.len().saturating_sub(1);
    let mut walk = Walk::along(&checked, &altered(rng, &checked, &first[..good]));
    let length = good + rng.pick(&[0, 0, 1, 1, 2, 5]);
    walk.wander(rng, length, |_| true);
    let mut second = walk.entries;
    if rng.once_in(2) {
        first.extend(tail(rng, &checked, &[]));
    }
    if second.len() > good && rng.once_in(3) {
        second.extend(tail(rng, &checked, &[]));
    }
    Twins {
        table: sample.bytes,
        first,
        second,
    }
}

/// The longest schedule that a table accepts, with a tail or without, against none of it, all of it, or all
/// of it and a tail.
fn long(rng: &mut Rng) -> Twins {
    let mix = rng.pick(&Mix::ALL);
    let (sample, mut first) = grown(rng, Shape::maximal(), &mix);
    let checked = check(&sample.bytes).expect("the table is right");
    let mut second = Vec::new();
    let sort = rng.below(4);
    if sort > 1 {
        second = exchanged(rng, &checked, &first);
    }
    if sort > 2 {
        second.extend(tail(rng, &checked, &[]));
    }
    if rng.once_in(3) {
        first.extend(tail(rng, &checked, &[]));
    }
    Twins {
        table: sample.bytes,
        first,
        second,
    }
}

/// Two recordings of any bytes; every fourth two are equally long.
pub fn bytes(rng: &mut Rng) -> [Vec<u8>; 2] {
    let first = length(rng);
    let second = match rng.below(8) {
        0 | 1 => first,
        2 => first + 1,
        3 => first.saturating_sub(1),
        _ => length(rng),
    };
    [first, second].map(|length| (0..length).map(|_| rng.byte()).collect())
}

/// A length, seldom a great one.
fn length(rng: &mut Rng) -> usize {
    match rng.below(512) {
        0 => rng.pick(&[65_535, 65_536, 70_000]),
        1..128 => rng.pick(&[0, 1, 255, 256, 257]),
        _ => rng.between(0, 40),
    }
}
