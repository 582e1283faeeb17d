//! Tables for tests.

#![allow(dead_code, unused_imports)]

use reference::{Refusal, Same, Site, check, follow, run};
pub use tables::TABLE_A as A;
use tables::{Action, Layout};

/// A table of the actors' actions, with two mailboxes and two mutexes.
pub fn table(actors: &[&[Action]]) -> Vec<u8> {
    Layout::new(2, 2, actors).bytes()
}

/// The site that an accepted schedule leads to.
pub fn after(table: &[u8], schedule: &[u8]) -> Site {
    let mut site = Site::fresh();
    let table = check(table).unwrap();
    let which = reference::Schedule::First;
    follow(&table, which, schedule, &mut site, |_, _| {}).unwrap();
    site
}

/// The report of an accepted schedule.
pub fn report(table: &[u8], schedule: &[u8]) -> Vec<u8> {
    written(run, 4_514, table, schedule)
}

/// A call that writes what a schedule leads to.
pub type Writes = fn(&[u8], &[u8], &mut [u8]) -> Result<usize, Refusal>;

/// What an accepted call writes into so much room; the bytes after it stay as they were.
pub fn written(call: Writes, room: usize, table: &[u8], schedule: &[u8]) -> Vec<u8> {
    let mut buffer = vec![0xa5; room];
    let length = call(table, schedule, &mut buffer).unwrap();
    assert!(buffer[length..].iter().all(|&byte| byte == 0xa5));
    buffer.truncate(length);
    buffer
}

/// An answer of the same verdict: "same", and how many pairs were compared.
pub fn same_after(pairs: u32) -> Result<Same, Refusal> {
    let is_same = true;
    Ok(Same { is_same, pairs })
}

/// Likewise "different".
pub fn different_after(pairs: u32) -> Result<Same, Refusal> {
    let is_same = false;
    Ok(Same { is_same, pairs })
}

/// Number and position of a refusal.
pub fn refused<T>(answer: Result<T, Refusal>) -> (u32, u32) {
    match answer {
        Ok(_) => (0, 0),
        Err(refusal) => (refusal.number(), refusal.position),
    }
}
