//! The cases, with what documents 01 and 02 ask to be printed.

use crate::case::{Case, File};
use tables::action::{add, lock, mutex_wait, note, receive, set, unlock, wait_any};
use tables::layout::{ACTION, LONGEST, MOST, MOST_ACTIONS};
use tables::{Action, Kind, Layout, TABLE_A};

/// All of them.
pub fn cases() -> Vec<Case> {
    let mut cases = plain();
    cases.extend(refused_tables());
    cases.extend(refused_schedules());
    cases.extend(limits());
    cases.extend(ends());
    cases.extend(totals());
    cases.extend(notes());
    cases.extend(locks());
    cases.extend(unreadable());
    cases
}

/// Document 01's own, and absent and empty files.
fn plain() -> Vec<Case> {
    let document = ["0 0", "1 0", "0 1", "1 1", "end finished"];
    let other = ["1 0", "0 0", "0 1", "1 1", "end finished"];
    vec![
        Case::new("document", TABLE_A, [0, 1, 0, 1], document),
        Case::new("other-order", TABLE_A, [1, 0, 0, 1], other),
        Case::new(
            "absent-both",
            File::Absent,
            File::Absent,
            ["refused 1 at 0"],
        ),
        Case::new(
            "absent-table",
            File::Absent,
            [0, 1, 0, 1],
            ["refused 1 at 0"],
        ),
        Case::new("absent-schedule", TABLE_A, File::Absent, ["end going"]),
        Case::new("empty-table", [], [0], ["refused 1 at 0"]),
        Case::new("empty-schedule", TABLE_A, [], ["end going"]),
    ]
}

/// Table A with the byte at `offset` replaced.
fn changed(offset: usize, byte: u8) -> Vec<u8> {
    let mut table = TABLE_A.to_vec();
    table[offset] = byte;
    table
}

/// The table with zeros after its end.
fn followed(mut table: Vec<u8>, zeros: usize) -> Vec<u8> {
    table.resize(table.len() + zeros, 0);
    table
}

fn refused_tables() -> Vec<Case> {
    let refused = |name, table: Vec<u8>, line| Case::new(name, table, [0], [line]);
    let too_many = vec![add(0, 1); MOST_ACTIONS + 1];
    let too_many = Layout::new(0, 0, &[&too_many]).bytes();
    vec![
        refused("refused-1", TABLE_A[..3].into(), "refused 1 at 0"),
        refused("refused-2", changed(0, 2), "refused 2 at 0"),
        refused(
            "refused-3-actors",
            Layout::default().bytes(),
            "refused 3 at 0",
        ),
        refused("refused-3-mailboxes", changed(2, 9), "refused 3 at 0"),
        refused("refused-4-cut", TABLE_A[..11].into(), "refused 4 at 0"),
        refused("refused-4-offset", changed(8, 29), "refused 4 at 0"),
        refused("refused-4-count", too_many, "refused 4 at 0"),
        refused("refused-5-short", TABLE_A[..43].into(), "refused 5 at 0"),
        refused(
            "refused-5-long",
            followed(TABLE_A.into(), 1),
            "refused 5 at 0",
        ),
        refused("refused-6", changed(12, 255), "refused 6 at 12"),
        refused(
            "refused-6-next",
            changed(12, Kind::COUNT as u8),
            "refused 6 at 12",
        ),
        refused("refused-7-z", changed(39, 0), "refused 7 at 36"),
        refused("refused-7-mailbox", changed(21, 1), "refused 7 at 20"),
        refused("refused-8", changed(40, 1), "refused 8 at 36"),
        refused("refused-9", changed(15, 1), "refused 9 at 12"),
    ]
}

fn refused_schedules() -> Vec<Case> {
    vec![
        Case::new("refused-11", TABLE_A, [2], ["refused 11 at 0"]),
        Case::new(
            "refused-11-newline",
            TABLE_A,
            [0, 1, 0, 1, b'\n'],
            ["refused 11 at 4"],
        ),
        Case::new("refused-12", TABLE_A, [0, 0, 0], ["refused 12 at 2"]),
        Case::new("refused-13", TABLE_A, [1, 1], ["refused 13 at 1"]),
        Case::new(
            "table-before-schedule",
            &TABLE_A[..43],
            [9],
            ["refused 5 at 0"],
        ),
    ]
}

/// The largest table: every action is an Add of cells 0 and 1.
fn largest() -> Vec<u8> {
    let script = [add(0, 1); MOST_ACTIONS];
    Layout::new(MOST, MOST, &[script.as_slice(); MOST as usize]).bytes()
}

/// So many entries for the largest table: each actor in turn.
fn turns(entries: usize) -> Vec<u8> {
    (0..MOST).cycle().take(entries).collect()
}

/// The largest table, and one byte more; as many entries as it has actions, and one more.
fn limits() -> Vec<Case> {
    let entries = MOST_ACTIONS * usize::from(MOST);
    let mut lines: Vec<String> = (0..MOST_ACTIONS)
        .flat_map(|action| (0..MOST).map(move |actor| format!("{actor} {action}")))
        .collect();
    lines.push("end finished".into());
    let lines = lines.iter().map(String::as_str);
    let mut unknown = largest();
    unknown[LONGEST - ACTION] = Kind::COUNT as u8;
    let mut absent = turns(entries);
    absent.push(MOST);
    vec![
        Case::new("largest-table", largest(), turns(entries), lines),
        Case::new("largest-table-idle", largest(), [], ["end going"]),
        Case::new("largest-table-last", unknown, [], ["refused 6 at 2076"]),
        Case::new(
            "largest-and-a-byte",
            followed(largest(), 1),
            [0],
            ["refused 5 at 0"],
        ),
        Case::new(
            "largest-and-many",
            followed(largest(), 4000),
            [0],
            ["refused 5 at 0"],
        ),
        Case::new("long-no-table", [7; 3000], [0], ["refused 2 at 0"]),
        Case::new(
            "entries-257-finished",
            largest(),
            turns(entries + 1),
            ["refused 12 at 256"],
        ),
        Case::new(
            "entries-257-absent",
            largest(),
            absent,
            ["refused 11 at 256"],
        ),
        Case::new(
            "entries-many",
            largest(),
            turns(8 * entries),
            ["refused 12 at 256"],
        ),
    ]
}

/// Sites that are stuck, and one that is finished at once.
fn ends() -> Vec<Case> {
    // One actor waits for what nobody sends.
    let alone = [receive(0, 2), wait_any(3, &[0])];
    let alone = Layout::new(1, 0, &[&alone]).bytes();
    // Two actors, each with the mutex that the other waits for.
    let crossed =
        [(0, 1), (1, 0)].map(|(own, other)| [lock(own), lock(other), mutex_wait(0, &[other])]);
    let crossed = Layout::new(0, 2, &[&crossed[0], &crossed[1]]).bytes();
    let steps = ["0 0", "1 0", "0 1", "1 1", "end stuck"];
    // An actor without actions.
    let idle = Layout::new(0, 0, &[&[]]).bytes();
    vec![
        Case::new("stuck-receive", alone, [0], ["0 0", "end stuck"]),
        Case::new("stuck-mutexes", crossed, [0, 1, 0, 1], steps),
        Case::new("finished-at-once", idle, [], ["end finished"]),
    ]
}

/// Totals that reach the limit, that pass it, and sites that are stuck by such.
fn totals() -> Vec<Case> {
    let adds = |value| [set(0, value), set(1, 1), add(0, 1)];
    let doubles = |value| [set(7, value), add(7, 7)];
    let (reached, passed) = (adds(u32::MAX - 1), adds(u32::MAX));
    let (fits, too_much) = (doubles((1 << 31) - 1), doubles(1 << 31));
    let waits = [mutex_wait(0, &[0])];
    let limit = Layout::new(0, 0, &[&reached, &fits]).bytes();
    let added = Layout::new(0, 0, &[&passed, &fits]).bytes();
    let doubled = Layout::new(0, 0, &[&reached, &too_much]).bytes();
    let alone = Layout::new(0, 0, &[&passed, &too_much]).bytes();
    let waiting = Layout::new(0, 1, &[&too_much, &waits]).bytes();
    let whole = ["0 0", "1 0", "0 1", "1 1", "0 2", "end finished"];
    let last = ["0 0", "0 1", "1 0", "end stuck"];
    vec![
        Case::new("limit", limit, [0, 1, 0, 1, 0], whole),
        Case::new("refused-21", added, [0, 1, 0, 0, 9], ["refused 21 at 3"]),
        Case::new(
            "refused-21-doubled",
            doubled,
            [1, 0, 0, 0, 1],
            ["refused 21 at 4"],
        ),
        Case::new("stuck-over", alone, [0, 0, 1], last),
        Case::new(
            "stuck-over-and-wait",
            waiting.clone(),
            [0],
            ["0 0", "end stuck"],
        ),
        Case::new("refused-21-stuck", waiting, [0, 0], ["refused 21 at 1"]),
    ]
}

/// Notes: a line each, and nothing of the journal. One with a cell that does not exist, and one with a byte
/// too many.
fn notes() -> Vec<Case> {
    let pump = |price| [set(0, price), note(0), note(7)];
    let table = Layout::new(0, 0, &[&pump(145), &pump(139)]);
    let whole = ["0 0", "1 0", "1 1", "0 1", "0 2", "1 2", "end finished"];
    let begun = ["1 0", "1 1", "end going"];
    let refused = |name, script: &[Action], line| {
        Case::new(name, Layout::new(0, 0, &[script]).bytes(), [0], [line])
    };
    let mut used = note(7);
    used[7] = 1;
    vec![
        Case::new("notes", table.bytes(), [0, 1, 1, 0, 0, 1], whole),
        Case::new("notes-begun", table.bytes(), [1, 1], begun),
        refused("notes-refused-7", &[note(0), note(8)], "refused 7 at 16"),
        refused("notes-refused-9", &[note(0), used], "refused 9 at 16"),
    ]
}

/// A mutex locked twice: one Unlock leaves the other actor waiting, the second lets it go on.
fn locks() -> Vec<Case> {
    let twice = [lock(0), lock(0), unlock(0), unlock(0)];
    let once = &twice[..3];
    let next = [lock(0), mutex_wait(0, &[0])];
    let table = Layout::new(0, 1, &[&twice, &next]).bytes();
    let missing = Layout::new(0, 1, &[once, &next]).bytes();
    let whole = ["0 0", "1 0", "0 1", "0 2", "0 3", "1 1", "end finished"];
    let stuck = ["0 0", "1 0", "0 1", "0 2", "end stuck"];
    vec![
        Case::new("locks-twice", table.clone(), [0, 1, 0, 0, 0, 1], whole),
        Case::new("locks-twice-stuck", missing, [0, 1, 0, 0], stuck),
        Case::new(
            "locks-twice-refused-13",
            table,
            [0, 1, 0, 0, 1],
            ["refused 13 at 4"],
        ),
    ]
}

/// A file that is there and cannot be read: no listing.
fn unreadable() -> Vec<Case> {
    vec![
        Case::new("unreadable-table", File::Folder, [0], []),
        Case::new("unreadable-schedule", TABLE_A, File::Folder, []),
    ]
}
