//! A drawn schedule judged by the engine's other calls: it is accepted, nobody is ready at its end, and each
//! entry is the one that the rule takes of those that are ready. Asked again, the engine draws the same.

use super::drawn;
use crate::harness::asked::Asked;
use order_engine::{Ending, REPORT_ROOM, draw, ready, run};

/// The longest schedules that are always gone through entry by entry. Of longer ones, those of every
/// so many seeds are.
const SHORT: usize = 24;
const SEEDS: u32 = 16;

/// What is wrong with the engine's schedule, if anything.
pub fn broken(asked: &Asked) -> Option<String> {
    if !asked.accepted() {
        return None;
    }
    let (table, seed) = (&asked.input.read[0], asked.input.numbers[0]);
    let schedule = drawn(asked);
    unended(table, schedule)
        .or_else(|| other(asked, table, seed, schedule))
        .or_else(|| {
            let each = schedule.len() <= SHORT || seed.is_multiple_of(SEEDS);
            each.then(|| astray(table, seed, schedule)).flatten()
        })
}

/// That it is refused, or that it could go on.
fn unended(table: &[u8], schedule: &[u8]) -> Option<String> {
    if let Err(refusal) = run(table, schedule, &mut [0; REPORT_ROOM]) {
        return Some(format!("the schedule drawn is {refusal}"));
    }
    match ready(table, schedule) {
        Err(refusal) => Some(format!("the schedule drawn is {refusal}")),
        Ok(end) if end.ending == Ending::Going => Some("somebody is ready at the end".to_string()),
        Ok(_) => None,
    }
}

/// That another is drawn into a buffer that holds something else.
fn other(asked: &Asked, table: &[u8], seed: u32, schedule: &[u8]) -> Option<String> {
    let mut buffer: Vec<u8> = asked.input.bytes.iter().map(|byte| !byte).collect();
    match draw(table, seed, &mut buffer) {
        Ok(again) if again == schedule => None,
        Ok(again) => Some(format!("drawn again: {again:?}")),
        Err(refusal) => Some(format!("drawn again: {refusal}")),
    }
}

/// The first entry that the rule does not take.
fn astray(table: &[u8], seed: u32, schedule: &[u8]) -> Option<String> {
    let mut x = seed;
    for (index, &entry) in schedule.iter().enumerate() {
        x = x.wrapping_mul(1_664_525).wrapping_add(1_013_904_223);
        let Ok(before) = ready(table, &schedule[..index]) else {
            return Some(format!("entry {index} is refused"));
        };
        let rank = (x >> 16) % before.count.max(1);
        if before.actors().nth(rank as usize) != Some(entry) {
            return Some(format!("entry {index}: rank {rank} of {before:?} is another"));
        }
    }
    None
}

#[cfg(test)]
mod tests {
    use super::{astray, unended};
    use tables::TABLE_A as A;

    #[test]
    fn an_end_too_early_and_an_entry_too_many() {
        let said = |schedule: &[u8]| unended(&A, schedule).unwrap_or_default();
        assert_eq!(said(&[0, 0, 1, 1]), "");
        assert_eq!(said(&[0, 0, 1]), "somebody is ready at the end");
        assert!(said(&[0, 0, 1, 1, 0]).starts_with("the schedule drawn is refused 12 at 4"));
    }

    #[test]
    fn an_entry_that_the_rule_does_not_take() {
        let said = |seed, schedule: &[u8]| astray(&A, seed, schedule).unwrap_or_default();
        assert_eq!(said(0, &[0, 0, 1, 1]), "");
        assert_eq!(said(4, &[0, 1, 0, 1]), "");
        assert!(said(4, &[0, 0, 1, 1]).starts_with("entry 1: rank 1 of "));
        assert!(said(0, &[1, 0, 0, 1]).starts_with("entry 0: rank 0 of "));
    }
}
