//! Totals that run over, by the proved calls called from Rust: document 02, request W2.

use order_engine::{Ending, PAGE_ROOM, REPORT_ROOM, Ready, Reason, Refusal};
use order_engine::{page, ready, route, run, same};
use tables::Layout;
use tables::action::{add, mutex_wait, set};

/// Actor 0 doubles what is half too much, actor 1 reaches the limit and then passes it, actor 2 waits.
fn table() -> Vec<u8> {
    let doubles = [set(0, 1 << 31), add(0, 0)];
    let adds = [set(0, u32::MAX - 1), set(1, 1), add(0, 1), add(0, 1)];
    Layout::new(0, 1, &[&doubles, &adds, &[mutex_wait(0, &[0])]]).bytes()
}

fn refusal<T: std::fmt::Debug>(answer: Result<T, Refusal>) -> (Reason, u32) {
    let refusal = answer.unwrap_err();
    (refusal.reason(), refusal.position())
}

#[test]
fn the_limit_is_reached_and_not_passed() {
    let table = table();
    let mut report = [7; REPORT_ROOM];
    let view = run(&table, &[1, 1, 1], &mut report).unwrap();
    assert_eq!(view.actors().nth(1).unwrap().cells[0], u32::MAX);
    let mask = |schedule: &[u8]| ready(&table, schedule).unwrap().mask;
    assert_eq!(mask(&[1, 1]), 0b011);
    assert_eq!(mask(&[1, 1, 1]), 0b001);
    assert_eq!(mask(&[0]), 0b010);
}

#[test]
fn stuck_with_only_such_steps_and_waits_left() {
    let stuck = Ready {
        mask: 0,
        count: 0,
        ending: Ending::Stuck,
    };
    assert_eq!(ready(&table(), &[1, 0, 1, 1]), Ok(stuck));
    let alone = Layout::new(0, 0, &[&[set(0, u32::MAX), add(0, 0)]]).bytes();
    assert_eq!(ready(&alone, &[0]), Ok(stuck));
}

#[test]
fn refused_in_each_call() {
    let table = table();
    let (over, first) = ((Reason::Over, 2), [1, 0, 0]);
    let mut lent = [7; REPORT_ROOM];
    assert_eq!(refusal(run(&table, &first, &mut lent)), over);
    assert_eq!(refusal(page(&table, &first, &mut lent)), over);
    assert_eq!(lent, [7; REPORT_ROOM]);
    assert_eq!(refusal(ready(&table, &first)), over);
    let mut route_lent = [7; 3];
    assert_eq!(refusal(same(&table, &first, &[9])), over);
    assert_eq!(refusal(route(&table, &first, &[9], &mut route_lent)), over);
    let over = (Reason::SecondOver, 3);
    let second = [1, 1, 1, 1];
    assert_eq!(refusal(same(&table, &[0], &second)), over);
    assert_eq!(refusal(route(&table, &[0], &second, &mut route_lent)), over);
    assert_eq!(route_lent, [7; 3]);
}

#[test]
fn a_refusal_in_words() {
    let refusal = ready(&table(), &[0, 0]).unwrap_err();
    let words =
        "refused 21 at 1: the schedule's entry names an actor whose Add would pass 4294967295";
    assert_eq!(refusal.to_string(), words);
}

#[test]
fn the_page() {
    let mut buffer = [7; PAGE_ROOM];
    let page = page(&table(), &[0], &mut buffer).unwrap();
    let statuses: Vec<&str> = page.lines().map(|line| &line[5..13]).collect();
    assert_eq!(statuses, ["over    ", "ready   ", "waits   "]);
}
