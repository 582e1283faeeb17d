//! A smaller input on which the engines still differ.

mod layout;
mod moves;

use crate::harness::difference::Difference;
use crate::harness::sides::difference;
use crate::harness::slots::{Input, Slots};

/// The difference on a smaller input of the same call.
pub fn shrunk(found: Difference) -> Difference {
    let call = found.call;
    let mut least = found;
    let start = least.input.clone();
    shrink(
        start,
        &call.slots,
        &mut |input| match difference(call, input) {
            Some(found) => {
                least = *found;
                true
            }
            None => false,
        },
    );
    least
}

/// Takes away what can be taken away while `differs` holds: entries, actors, actions, mailboxes,
/// mutexes, bytes and room.
pub fn shrink(mut input: Input, slots: &Slots, differs: &mut dyn FnMut(&Input) -> bool) -> Input {
    loop {
        let before = size(&input);
        let mut at = 0;
        let mut moves = moves::all(&input, slots);
        while let Some(step) = moves.get(at) {
            match step.apply(&input, slots) {
                Some(next) if size(&next) < size(&input) && differs(&next) => {
                    input = next;
                    moves = moves::all(&input, slots);
                }
                _ => at += 1,
            }
        }
        if size(&input) == before {
            return input;
        }
    }
}

/// How large an input is: all lengths, then all values. Every step of shrinking lowers it.
fn size(input: &Input) -> (usize, u64) {
    let Input {
        read,
        numbers,
        bytes,
        entries,
    } = input;
    let read_lengths: usize = read.iter().map(Vec::len).sum();
    let length = read_lengths + bytes.len() + entries.len();
    let all_bytes = read.iter().flatten().chain(bytes).map(|&b| u64::from(b));
    let all_entries = entries.iter().map(|&entry| u64::from(entry));
    let all_numbers = numbers.iter().map(|&number| u64::from(number));
    let values = all_bytes.chain(all_entries).chain(all_numbers).sum();
    (length, values)
}
