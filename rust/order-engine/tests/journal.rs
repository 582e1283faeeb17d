//! Notes and the journal, by the proved calls called from Rust: document 02, request W5.

use order_engine::PairVerdict::{Dependent, Independent};
use order_engine::{Ending, PAGE_ROOM, REPORT_ROOM, Reason, Refusal, SCHEDULE_MOST, StepName};
use order_engine::{check, draw, page, pair, prefix, ready, route, run, same};
use tables::action::{lock, note, receive, send, set, test_any, wait_any};
use tables::layout::{MOST, MOST_ACTIONS};
use tables::{Action, Layout};

/// Two actors that each set a cell, note it and clear it.
fn table() -> Vec<u8> {
    let pump = |price| [set(0, price), note(0), set(0, 0)];
    Layout::new(1, 1, &[&pump(0x0403_0201), &pump(139)]).bytes()
}

/// The journal after a schedule: step names and values.
fn journal(table: &[u8], schedule: &[u8]) -> Vec<(String, u32)> {
    let mut buffer = [7; REPORT_ROOM];
    let report = run(table, schedule, &mut buffer).unwrap();
    let entries = report.journal().entries();
    entries
        .map(|entry| (entry.step.to_string(), entry.value))
        .collect()
}

fn entry(step: &str, value: u32) -> (String, u32) {
    (step.to_owned(), value)
}

fn refusal<T: std::fmt::Debug>(answer: Result<T, Refusal>) -> (Reason, u32) {
    let refusal = answer.unwrap_err();
    (refusal.reason(), refusal.position())
}

#[test]
fn the_oldest_first_with_the_value_of_the_moment() {
    let [one, other] = [entry("0.1", 0x0403_0201), entry("1.1", 139)];
    assert_eq!(
        journal(&table(), &[0, 0, 0, 1, 1, 1]),
        [one.clone(), other.clone()]
    );
    assert_eq!(journal(&table(), &[0, 1, 1, 0, 1, 0]), [other.clone(), one]);
    assert_eq!(journal(&table(), &[0, 1, 1]), [other]);
    assert_eq!(journal(&table(), &[0, 1]), []);
}

#[test]
fn a_value_that_was_received() {
    let pump = [receive(0, 4), note(4), wait_any(5, &[0]), note(4), note(5)];
    let table = Layout::new(1, 0, &[&[set(0, 149), send(0, 0)], &pump]).bytes();
    let entries = [entry("1.1", 0), entry("1.3", 149), entry("1.4", 1)];
    assert_eq!(journal(&table, &[0, 0, 1, 1, 1, 1, 1]), entries);
}

#[test]
fn bytes_behind_the_queues() {
    let scripts: [&[Action]; 2] = [&[send(0, 0), lock(0)], &[set(2, 0x0403_0201), note(2)]];
    let table = Layout::new(1, 1, &scripts).bytes();
    let mut buffer = [7; REPORT_ROOM];
    let report = run(&table, &[0, 0, 1, 1], &mut buffer).unwrap();
    let end = [1, 0, 0, 0, 1, 0, 1, 1, 0, 1, 1, 1, 2, 3, 4];
    assert_eq!(report.bytes()[2 * 33 + 4 * 8..], end);
    let length = report.bytes().len();
    assert_eq!(buffer[length..], [7; REPORT_ROOM][length..]);
}

#[test]
fn two_orders_of_two_notes() {
    let table = table();
    let (one, other) = ([0, 0, 0, 1, 1, 1], [0, 1, 1, 0, 1, 0]);
    assert!(!same(&table, &one, &other).unwrap().is_same());
    assert!(
        !prefix(&table, &one[..5], &[1, 1, 0, 0, 0, 9])
            .unwrap()
            .is_same()
    );
    let mut positions = [7; 15];
    assert_eq!(
        refusal(route(&table, &one, &other, &mut positions)),
        (Reason::Different, 0)
    );
    // A Note and another actor's Sets may trade places.
    let third = [1, 0, 0, 1, 1, 0];
    assert!(same(&table, &one, &third).unwrap().is_same());
    let length = route(&table, &one, &third, &mut positions).unwrap().len();
    let mut schedule = one;
    for &k in &positions[..length] {
        schedule.swap(usize::from(k), usize::from(k) + 1);
    }
    assert_eq!(schedule, third);
    assert_eq!(journal(&table, &one), journal(&table, &third));
}

#[test]
fn pairs() {
    let script = [send(0, 0), receive(0, 1), note(2), note(3), lock(0)];
    let table = Layout::new(1, 1, &[&script, &script]).bytes();
    let verdict = |a, k, b, l| pair(&table, StepName::new(a, k), StepName::new(b, l)).unwrap();
    assert_eq!([verdict(0, 2, 1, 3), verdict(1, 3, 0, 2)], [Dependent; 2]);
    assert_eq!([verdict(0, 2, 0, 3), verdict(0, 2, 0, 0)], [Dependent; 2]);
    for other in [0, 1, 4] {
        assert_eq!(
            [verdict(0, 2, 1, other), verdict(1, other, 0, 2)],
            [Independent; 2]
        );
    }
}

#[test]
fn always_ready_and_nothing_on_the_page() {
    let table = Layout::new(0, 0, &[&[note(0)], &[note(7), note(7)]]).bytes();
    let before = ready(&table, &[]).unwrap();
    assert_eq!((before.mask, before.count), (3, 2));
    assert_eq!(ready(&table, &[1, 0, 1]).unwrap().ending, Ending::Finished);
    let mut buffer = [7; PAGE_ROOM];
    let shown = page(&table, &[1, 0], &mut buffer).unwrap();
    assert!(shown.starts_with("0  1 finished          0 "));
    assert!(shown[102..].starts_with("1  1 ready             0 "));
    let mut drawn = [7; SCHEDULE_MOST];
    assert_eq!(draw(&table, 0, &mut drawn).map(<[u8]>::len), Ok(3));
}

#[test]
fn the_longest() {
    let script = [note(0); MOST_ACTIONS];
    let table = Layout::new(MOST, MOST, &[&script[..]; MOST as usize]).bytes();
    let schedule: Vec<u8> = (0..MOST).rev().cycle().take(SCHEDULE_MOST).collect();
    let mut buffer = [7; REPORT_ROOM];
    let report = run(&table, &schedule, &mut buffer).unwrap();
    assert_eq!(report.bytes().len(), 3_874);
    let entries = report.journal().entries();
    assert_eq!(entries.len(), 256);
    let steps = entries.map(|entry| entry.step.actor);
    assert_eq!(steps.collect::<Vec<u8>>(), schedule);
}

#[test]
fn refusals() {
    let one = |actions: &[Action]| refusal(check(&Layout::new(1, 1, &[actions]).bytes()));
    assert_eq!(one(&[note(0), note(8)]), (Reason::Range, 16));
    for byte in 2..8 {
        let mut action = note(0);
        action[byte] = 1;
        assert_eq!(one(&[action]), (Reason::Unused, 8));
    }
    assert_eq!(one(&[note(0), test_any(0, &[0])]), (Reason::Listed, 16));
    let mut short = [7; 4_513];
    assert_eq!(
        refusal(run(&table(), &[0, 0], &mut short)),
        (Reason::ReportRoom, 0)
    );
    assert_eq!(short, [7; 4_513]);
    assert!(run(&table(), &[0, 0], &mut [7; 4_514]).is_ok());
}
