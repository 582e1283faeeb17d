//! The steps of shrinking, from the coarse ones to the fine ones.

use crate::harness::shrink::layout::{below, drop_action, drop_mailbox, drop_mutex};
use crate::harness::slots::{Input, Number, Role, Slots};
use tables::Layout;

/// A step: what is left out, or made smaller. The first number is the slot's, where there are more
/// than one.
#[derive(Clone, Copy, Debug)]
pub enum Move {
    /// The lent buffers hold zeros.
    Blank,
    /// The lent buffer becomes this long.
    Room(usize),
    /// An actor, with its entries.
    Actor(usize, usize),
    /// Bytes of a slice.
    Part(usize, usize, usize),
    /// The same entries of all schedules.
    Entries(usize, usize),
    /// The nth entry of an actor, in all schedules.
    Entry(u8, usize),
    /// An action, with its entries.
    Action(usize, usize, usize),
    /// A mailbox.
    Mailbox(usize, u8),
    /// A mutex.
    Mutex(usize, u8),
    /// An action becomes all zeros.
    Clear(usize, usize, usize),
    /// A byte of a slice becomes this.
    Byte(usize, usize, u8),
    /// A number becomes this.
    Number(usize, u32),
}

/// Every step that an input allows.
pub fn all(input: &Input, slots: &Slots) -> Vec<Move> {
    let mut moves = vec![Move::Blank];
    let lent = input.bytes.len().max(input.entries.len());
    moves.extend(shorter(lent).map(Move::Room));
    for (slot, read) in slots.read.iter().enumerate() {
        let slice = &input.read[slot];
        match (read.1, Layout::of(slice)) {
            (Role::Table, Some(layout)) => parts(&mut moves, slot, &layout),
            _ => {
                let ranges = ranges(slice.len()).into_iter();
                moves.extend(ranges.map(|(at, count)| Move::Part(slot, at, count)));
            }
        }
    }
    let common = ranges(common(input, slots)).into_iter();
    moves.extend(common.map(|(at, count)| Move::Entries(at, count)));
    for (slot, slice) in input.read.iter().enumerate() {
        for (at, &byte) in slice.iter().enumerate() {
            let smaller = [0, byte / 2, byte.saturating_sub(1)];
            moves.extend(smaller.map(|byte| Move::Byte(slot, at, byte)));
        }
    }
    for (at, &number) in input.numbers.iter().enumerate() {
        let smaller = [0, number / 2, number.saturating_sub(1)];
        moves.extend(smaller.map(|number| Move::Number(at, number)));
    }
    moves
}

/// Parts of a table.
fn parts(moves: &mut Vec<Move>, slot: usize, layout: &Layout) {
    let actors = 0..layout.scripts.len();
    moves.extend(actors.rev().map(|actor| Move::Actor(slot, actor)));
    for (actor, script) in layout.scripts.iter().enumerate() {
        for index in (0..script.len()).rev() {
            moves.push(Move::Entry(actor as u8, index));
            moves.push(Move::Action(slot, actor, index));
        }
    }
    let mailboxes = (0..layout.mailboxes).rev();
    moves.extend(mailboxes.map(|mailbox| Move::Mailbox(slot, mailbox)));
    let mutexes = (0..layout.mutexes).rev();
    moves.extend(mutexes.map(|mutex| Move::Mutex(slot, mutex)));
    for (actor, script) in layout.scripts.iter().enumerate() {
        moves.extend((0..script.len()).map(|index| Move::Clear(slot, actor, index)));
    }
}

/// Lengths to try for a buffer: none, halves and quarters less, down to one less.
fn shorter(now: usize) -> impl Iterator<Item = usize> {
    let less = std::iter::successors(Some(now), |&less| Some(less / 2).filter(|&half| half > 0));
    less.take_while(move |_| now > 0)
        .map(move |less| now - less)
}

/// Ranges of a list to leave out: halves, quarters, down to single ones, from the back.
fn ranges(length: usize) -> Vec<(usize, usize)> {
    let mut ranges = Vec::new();
    let mut count = length;
    while count > 0 {
        ranges.extend((0..length / count).rev().map(|part| (part * count, count)));
        count /= 2;
    }
    ranges
}

impl Move {
    /// The input after this step, if it still allows it.
    pub fn apply(self, input: &Input, slots: &Slots) -> Option<Input> {
        let mut next = input.clone();
        match self {
            Self::Blank => {
                next.bytes.fill(0);
                next.entries.fill(0);
            }
            Self::Room(length) => {
                next.bytes.truncate(length);
                next.entries.truncate(length);
            }
            Self::Part(slot, at, count) => {
                next.read[slot].get(at..at + count)?;
                next.read[slot].drain(at..at + count);
            }
            Self::Entries(at, count) => {
                for schedule in schedules(&mut next, slots) {
                    schedule.get(at..at + count)?;
                    schedule.drain(at..at + count);
                }
            }
            Self::Entry(actor, nth) => {
                for schedule in schedules(&mut next, slots) {
                    drop_entry(schedule, actor, nth);
                }
            }
            Self::Byte(slot, at, byte) => *next.read[slot].get_mut(at)? = byte,
            Self::Number(at, number) => next.numbers[at] = number,
            Self::Actor(slot, actor) => {
                laid_out(&mut next, slot, |layout| {
                    layout.scripts.get(actor)?;
                    layout.scripts.remove(actor);
                    Some(())
                })?;
                drop_actor(&mut next, slots, actor as u8);
            }
            Self::Action(slot, actor, index) => {
                laid_out(&mut next, slot, |layout| {
                    layout.scripts.get(actor)?.get(index)?;
                    drop_action(layout, actor, index);
                    Some(())
                })?;
                drop_step(&mut next, slots, actor as u8, index);
            }
            Self::Mailbox(slot, mailbox) => laid_out(&mut next, slot, |layout| {
                drop_mailbox(layout, mailbox);
                Some(())
            })?,
            Self::Mutex(slot, mutex) => laid_out(&mut next, slot, |layout| {
                drop_mutex(layout, mutex);
                Some(())
            })?,
            Self::Clear(slot, actor, index) => laid_out(&mut next, slot, |layout| {
                *layout.scripts.get_mut(actor)?.get_mut(index)? = [0; 8];
                Some(())
            })?,
        }
        Some(next)
    }
}

/// Changes a table by its layout, if it has one.
fn laid_out(
    input: &mut Input,
    slot: usize,
    change: impl FnOnce(&mut Layout) -> Option<()>,
) -> Option<()> {
    let mut layout = Layout::of(&input.read[slot])?;
    change(&mut layout)?;
    input.read[slot] = layout.bytes();
    Some(())
}

/// The schedules of an input.
fn schedules<'a>(input: &'a mut Input, slots: &Slots) -> impl Iterator<Item = &'a mut Vec<u8>> {
    let slices = input.read.iter_mut().zip(slots.read);
    slices.filter_map(|(slice, read)| is_schedule(read.1).then_some(slice))
}

/// How many entries all schedules of an input have, where there are two.
fn common(input: &Input, slots: &Slots) -> usize {
    let slices = input.read.iter().zip(slots.read);
    let schedules = slices.filter(|(_, read)| is_schedule(read.1));
    let lengths: Vec<usize> = schedules.map(|(schedule, _)| schedule.len()).collect();
    match lengths[..] {
        [first, second] => first.min(second),
        _ => 0,
    }
}

fn is_schedule(role: Role) -> bool {
    match role {
        Role::First | Role::Second => true,
        Role::Table => false,
    }
}

/// Takes an actor's entries out, and gives those after it the numbers that they have then.
fn drop_actor(input: &mut Input, slots: &Slots, gone: u8) {
    for schedule in schedules(input, slots) {
        schedule.retain(|&actor| actor != gone);
        for actor in schedule {
            *actor = below(*actor, gone);
        }
    }
    for (number, slot) in input.numbers.iter_mut().zip(slots.numbers) {
        if let (Number::Actor(_), Ok(actor)) = (slot, u8::try_from(*number)) {
            *number = u32::from(below(actor, gone));
        }
    }
}

/// Takes an action's entries out, and gives the actions after it the numbers that they have then.
fn drop_step(input: &mut Input, slots: &Slots, actor: u8, index: usize) {
    for schedule in schedules(input, slots) {
        drop_entry(schedule, actor, index);
    }
    let mut of_actor = false;
    for (number, slot) in input.numbers.iter_mut().zip(slots.numbers) {
        match slot {
            Number::Actor(_) => of_actor = *number == u32::from(actor),
            Number::Action(_) if of_actor && *number as usize > index => *number -= 1,
            Number::Action(_) | Number::Any(_) => {}
        }
    }
}

/// Takes an actor's nth entry out, if there is one.
fn drop_entry(schedule: &mut Vec<u8>, actor: u8, nth: usize) {
    let mut own = (0..schedule.len()).filter(|&at| schedule[at] == actor);
    if let Some(at) = own.nth(nth) {
        schedule.remove(at);
    }
}
