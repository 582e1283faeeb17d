//! Ways to spoil a table: at random, or aimed at one of refusals 1 to 9.
//!
//! Aimed damage mostly takes the first value past a limit, or one that a careless reader would take
//! for a right one. What the table is then refused for is the reference's business; a second
//! damage, or another part of the table, may come first.

use crate::inputs::rng::Rng;
use crate::inputs::sample::{Place, Sample, is_post};
use reference::Reason;
use tables::layout::{ACTION, CELLS, MOST, MOST_ACTIONS, first_offset};
use tables::{Action, Field, Kind, Rest, action};

/// Spoils a table so that it deserves refusal `aim`. Where that is an action's, it is the one at
/// `place`, and a table without actions stays as it is.
pub fn aim(rng: &mut Rng, sample: &mut Sample, aim: Reason, place: Option<Place>) {
    let bytes = &mut sample.bytes;
    match aim {
        Reason::ShortFile => bytes.truncate(rng.below(4)),
        Reason::Edition => set(bytes, 0, rng.pick(&[0, 2, 3, 129, 255])),
        Reason::Count => counts(rng, bytes),
        Reason::Directory => directory(rng, sample),
        Reason::FileEnd => file_end(rng, sample),
        _ => {
            if let Some(place) = place {
                aim_at_action(rng, sample, aim, place);
            }
        }
    }
}

/// Spoils the action at `place`.
fn aim_at_action(rng: &mut Rng, sample: &mut Sample, aim: Reason, place: Place) {
    match aim {
        Reason::Kind => set(&mut sample.bytes, place.offset, unknown_kind(rng)),
        Reason::Range => range(rng, sample, place),
        Reason::Listed => listed(rng, sample, place),
        Reason::Unused => unused(rng, &mut sample.bytes, place),
        _ => unreachable!("refusal {} is none of a table", aim.number()),
    }
}

/// A number that is no kind: the first ones, and some whose low bits are a kind's.
fn unknown_kind(rng: &mut Rng) -> u8 {
    let first = Kind::COUNT as u8;
    let known = rng.pick(&Kind::ALL).code();
    rng.pick(&[first, first, first + 1, known + 16, known + 128, 255])
}

/// Changes one to six bytes, wherever they lie.
pub fn scatter(rng: &mut Rng, bytes: &mut [u8]) {
    for _ in 0..rng.between(1, 6) {
        if bytes.is_empty() {
            return;
        }
        let at = rng.below(bytes.len());
        bytes[at] = match rng.below(5) {
            0 => bytes[at] ^ (1 << rng.below(8)),
            1 => bytes[at].wrapping_add(1),
            2 => bytes[at].wrapping_sub(1),
            3 => rng.below(Kind::COUNT + 1) as u8,
            _ => rng.byte(),
        };
    }
}

/// Takes an action out or doubles it, and leaves the directory as it is.
pub fn splice(rng: &mut Rng, sample: &mut Sample) {
    let Some(place) = sample.place(rng) else {
        return;
    };
    let end = place.offset + ACTION;
    if rng.once_in(2) {
        sample.bytes.drain(place.offset..end);
    } else {
        let copy = sample.bytes[place.offset..end].to_vec();
        sample.bytes.splice(end..end, copy);
    }
}

/// Moves the border between two neighbouring actors by an action. The directory stays right, but
/// lists may then name actions of the neighbour.
pub fn move_border(rng: &mut Rng, sample: &mut Sample) {
    let actors = sample.shape.counts.len();
    if actors < 2 {
        return;
    }
    let left = rng.below(actors - 1);
    let counts = &mut sample.shape.counts;
    let (from, to) = if rng.once_in(2) {
        (left, left + 1)
    } else {
        (left + 1, left)
    };
    if counts[from] == 0 || counts[to] == MOST_ACTIONS {
        return;
    }
    counts[from] -= 1;
    counts[to] += 1;
    let mut end = first_offset(actors);
    for (actor, count) in counts.iter().enumerate() {
        let entry = first_offset(actor);
        sample.bytes[entry..entry + 2].copy_from_slice(&(end as u16).to_le_bytes());
        sample.bytes[entry + 2] = *count as u8;
        end += ACTION * count;
    }
}

/// Sets a byte, if an earlier cut left it.
fn set(bytes: &mut [u8], at: usize, byte: u8) {
    if let Some(place) = bytes.get_mut(at) {
        *place = byte;
    }
}

/// Adds to a 16-bit number, if an earlier cut left it.
fn add(bytes: &mut [u8], at: usize, difference: u16) {
    if let Some(place) = bytes.get_mut(at..at + 2) {
        let number = u16::from_le_bytes([place[0], place[1]]).wrapping_add(difference);
        place.copy_from_slice(&number.to_le_bytes());
    }
}

/// A header's count out of its range.
fn counts(rng: &mut Rng, bytes: &mut [u8]) {
    let at = rng.between(1, 3);
    let byte = match at {
        1 => rng.pick(&[0, MOST + 1, MOST + 2, 128, 255]),
        _ => rng.pick(&[MOST + 1, MOST + 2, 128, 255]),
    };
    set(bytes, at, byte);
}

/// A directory that is cut short, or a wrong offset or number of actions in one of its entries.
fn directory(rng: &mut Rng, sample: &mut Sample) {
    let actors = sample.shape.counts.len();
    let entry = first_offset(rng.below(actors.max(1)));
    let bytes = &mut sample.bytes;
    match rng.below(6) {
        0 => bytes.truncate(rng.between(4, 3 + 4 * actors.max(1))),
        1 => add(bytes, entry, rng.pick(&[1, 4, 8, !0, !7, 256, 1 << 15])),
        2 => add(bytes, entry, rng.bits() as u16),
        3 => set(bytes, entry + 2, rng.pick(&[33, 34, 64, 128, 255])),
        4 => set(bytes, entry + 3, rng.pick(&[1, 2, 32, 128, 255])),
        _ => add(bytes, entry + 2, rng.pick(&[1, !0, 256, 8192])),
    }
}

/// A file that ends elsewhere than its directory says.
fn file_end(rng: &mut Rng, sample: &mut Sample) {
    let length = sample.bytes.len();
    let actors = sample.shape.counts.len();
    let directory = first_offset(actors).min(length);
    match rng.below(4) {
        0 => sample.bytes.truncate(length.saturating_sub(1)),
        1 => sample.bytes.truncate(rng.between(directory, length)),
        2 => sample.bytes.resize(length + rng.between(1, 16), 0),
        _ => {
            let last = 4 * actors + 2;
            let count = sample.shape.counts.last().copied().unwrap_or(0);
            let other = if count < MOST_ACTIONS {
                count + 1
            } else {
                count - 1
            };
            set(&mut sample.bytes, last, other as u8);
        }
    }
}

/// A number that is `limit` or more.
fn over(rng: &mut Rng, limit: u8) -> u8 {
    match rng.below(4) {
        0 | 1 => limit,
        2 => 128 + limit,
        _ => rng.between(usize::from(limit), 255) as u8,
    }
}

/// A field of an action out of its range: p, q, z or a listed number.
fn range(rng: &mut Rng, sample: &mut Sample, place: Place) {
    let (mailboxes, mutexes) = (sample.shape.mailboxes, sample.shape.mutexes);
    let Some((kind, action)) = known_action(&mut sample.bytes, place) else {
        return;
    };
    let p_limit = match kind.field() {
        Field::Cell => CELLS,
        Field::Mailbox => mailboxes,
        Field::Mutex => mutexes,
    };
    let fields: &[usize] = match kind.rest() {
        Rest::Nothing | Rest::Value => &[1],
        Rest::Cell => &[1, 2],
        Rest::Communications => &[1, 3],
        Rest::Mutexes => &[1, 3, 4],
    };
    match rng.pick(fields) {
        1 => action[1] = over(rng, p_limit),
        2 => action[2] = over(rng, CELLS),
        3 => action[3] = rng.pick(&[0, 5, 6, 8, 128, 129, 255]),
        _ => {
            let at = listed_at(rng, action);
            action[at] = over(rng, mutexes);
        }
    }
}

/// A list with an action that is not allowed: itself, a higher one, one of another kind, none such.
fn listed(rng: &mut Rng, sample: &mut Sample, place: Place) {
    let own = place.index as u8;
    let (posts, others) = lower(&sample.bytes, place);
    let Some(action) = action_at(&mut sample.bytes, place) else {
        return;
    };
    let lists = |kind: Kind| kind.rest() == Rest::Communications;
    if !action::kind(action).is_some_and(lists) {
        let kinds: Vec<Kind> = Kind::ALL.into_iter().filter(|&kind| lists(kind)).collect();
        let length = rng.between(1, action::LONGEST_LIST);
        let number = |rng: &mut Rng| match posts.is_empty() {
            true => 0,
            false => rng.pick(&posts),
        };
        let list: Vec<u8> = (0..length).map(|_| number(rng)).collect();
        *action = action::listing(rng.pick(&kinds), rng.below(8) as u8, &list);
    }
    let at = listed_at(rng, action);
    action[at] = match rng.below(6) {
        0 => own,
        1 => own + 1,
        2 if !others.is_empty() => rng.pick(&others),
        // The low bits name an action that is allowed.
        3 if !posts.is_empty() => rng.pick(&posts) + rng.pick(&[32, 64, 128]),
        4 => rng.pick(&[31, 32, 33, 63, 64, 255]),
        _ => rng.between(usize::from(own), 255) as u8,
    };
}

/// The numbers of the actor's lower actions: Sends and Receives, and others.
fn lower(bytes: &[u8], place: Place) -> (Vec<u8>, Vec<u8>) {
    let own = bytes.get(place.first..place.offset).unwrap_or(&[]);
    let (actions, _) = own.as_chunks::<ACTION>();
    (0..actions.len() as u8).partition(|&index| is_post(&actions[usize::from(index)]))
}

/// The index of one of the bytes that an action lists.
fn listed_at(rng: &mut Rng, action: &Action) -> usize {
    4 + rng.below(action::list(action).len().max(1))
}

/// A byte without a use that is not 0.
fn unused(rng: &mut Rng, bytes: &mut [u8], place: Place) {
    let Some((kind, action)) = known_action(bytes, place) else {
        return;
    };
    let listed = action::list(action).len();
    let at = match kind.rest() {
        Rest::Value => rng.between(2, 3),
        Rest::Cell => rng.between(3, 7),
        Rest::Nothing => rng.between(2, 7),
        Rest::Communications | Rest::Mutexes if listed < 4 && rng.once_in(2) => {
            rng.between(4 + listed, 7)
        }
        Rest::Communications | Rest::Mutexes => 2,
    };
    action[at] = rng.pick(&[1, 1, 2, 7, 128, 255]);
}

/// The action's bytes, if an earlier cut left them.
fn action_at(bytes: &mut [u8], place: Place) -> Option<&mut Action> {
    bytes.get_mut(place.offset..)?.first_chunk_mut()
}

/// The action's bytes with its kind, if an earlier damage left it one.
fn known_action(bytes: &mut [u8], place: Place) -> Option<(Kind, &mut Action)> {
    let action = action_at(bytes, place)?;
    Some((action::kind(action)?, action))
}
