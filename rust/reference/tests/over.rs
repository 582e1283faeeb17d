//! Sums that run over, against document 02, request W2: the limit, who is ready, the page's word, and
//! refusals 21 and 22.

mod common;

use common::{after, refused, table, written};
use reference::{Ending, Ready, page, quick, ready, route, run, same};
use tables::Action;
use tables::action::{add, lock, mutex_wait, send, set, unlock};

/// Sets two cells and adds the second to the first.
fn sum(one: u32, other: u32) -> [Action; 3] {
    [set(2, one), set(5, other), add(2, 5)]
}

/// Sets a cell and adds it to itself.
fn double(value: u32) -> [Action; 2] {
    [set(7, value), add(7, 7)]
}

/// What a lone actor's last action, an Add into `cell`, makes of it; none where it is refused as over.
fn made(script: &[Action], cell: usize) -> Option<u32> {
    let table = table(&[script]);
    let before = vec![0; script.len() - 1];
    let whole = vec![0; script.len()];
    match refused(ready(&table, &whole)) {
        (0, 0) => {
            assert_eq!(ready(&table, &before), answer(1, Ending::Going));
            Some(after(&table, &whole).actor(0).cells[cell])
        }
        refusal => {
            assert_eq!(refusal, (21, before.len() as u32));
            assert_eq!(ready(&table, &before), answer(0, Ending::Stuck));
            None
        }
    }
}

fn answer<E>(mask: u32, ending: Ending) -> Result<Ready, E> {
    Ok(Ready {
        mask,
        count: mask.count_ones(),
        ending,
    })
}

#[test]
fn the_limit_by_two_cells() {
    let most = u32::MAX;
    for (one, other) in [
        (most, 0),
        (0, most),
        (most - 1, 1),
        (1 << 31, (1 << 31) - 1),
    ] {
        assert_eq!(made(&sum(one, other), 2), Some(most), "{one} + {other}");
    }
    for (one, other) in [(most, 1), (1, most), (most - 1, 2), (1 << 31, 1 << 31)] {
        assert_eq!(made(&sum(one, other), 2), None, "{one} + {other}");
    }
    assert_eq!(made(&sum(most, most), 2), None);
}

#[test]
fn the_limit_by_one_cell() {
    assert_eq!(made(&double((1 << 31) - 1), 7), Some(4_294_967_294));
    assert_eq!(made(&double(1 << 31), 7), None);
    assert_eq!(made(&double(u32::MAX), 7), None);
}

#[test]
fn others_go_on() {
    let table = table(&[&double(1 << 31), &[set(0, 1)], &double(3)]);
    assert_eq!(ready(&table, &[0]), answer(0b110, Ending::Going));
    assert_eq!(ready(&table, &[0, 1, 2]), answer(0b100, Ending::Going));
    // Only the Add is left.
    assert_eq!(ready(&table, &[0, 1, 2, 2]), answer(0, Ending::Stuck));
}

#[test]
fn stuck_by_an_add_and_a_wait() {
    let waiting = [mutex_wait(0, &[0])];
    let table = table(&[&waiting, &double(1 << 31)]);
    assert_eq!(ready(&table, &[]), answer(0b10, Ending::Going));
    assert_eq!(ready(&table, &[1]), answer(0, Ending::Stuck));
    assert_eq!(refused(ready(&table, &[1, 0])), (13, 1));
    assert_eq!(refused(ready(&table, &[1, 1])), (21, 1));
}

#[test]
fn over_for_good() {
    let other = [send(0, 0), lock(0), unlock(0), set(7, 1)];
    let table = table(&[&sum(u32::MAX, 1), &other]);
    for steps in 0..=other.len() {
        let others = vec![1; steps];
        let wanted = match steps == other.len() {
            true => answer(0, Ending::Stuck),
            false => answer(0b10, Ending::Going),
        };
        // The other's steps before the actor's own, and after them.
        for own in [[&others[..], &[0, 0]], [&[0, 0], &others[..]]] {
            let schedule = own.concat();
            assert_eq!(ready(&table, &schedule), wanted);
            let longer = [&schedule[..], &[0, 9]].concat();
            assert_eq!(refused(ready(&table, &longer)), (21, 2 + steps as u32));
        }
    }
}

#[test]
fn in_the_place_of_13_and_16() {
    let table = table(&[&double(1 << 31), &[set(0, 1)]]);
    let first = [1, 0, 0, 9];
    let accepted = [1, 0];
    for call in [run, page, quick::page] {
        let mut lent = [7; 4_514];
        assert_eq!(refused(call(&table, &first, &mut lent)), (21, 2));
        assert_eq!(lent, [7; 4_514]);
    }
    assert_eq!(refused(ready(&table, &first)), (21, 2));
    for call in [same, quick::same] {
        assert_eq!(refused(call(&table, &first, &[9])), (21, 2));
        assert_eq!(refused(call(&table, &accepted, &[0, 0, 9])), (22, 1));
        assert_eq!(refused(call(&table, &[], &first)), (22, 2));
    }
    for call in [route, quick::route] {
        let mut lent = [7; 6];
        assert_eq!(refused(call(&table, &first, &[9], &mut lent)), (21, 2));
        assert_eq!(refused(call(&table, &[], &first, &mut lent)), (22, 2));
        assert_eq!(lent, [7; 6]);
    }
}

#[test]
fn a_finished_actor_is_not_over() {
    let table = table(&[&double((1 << 31) - 1), &sum(u32::MAX, 1)]);
    assert_eq!(refused(ready(&table, &[0, 0, 0])), (12, 2));
    assert_eq!(refused(ready(&table, &[1, 1, 2])), (11, 2));
}

#[test]
fn the_page_says_over() {
    let table = table(&[
        &sum(u32::MAX, 1),
        &[mutex_wait(0, &[0])],
        &double((1 << 31) - 1),
        &double(1),
    ]);
    let wanted = "\
0  2 over              0          0 4294967295          0          0          1          0          0
1  0 waits             0          0          0          0          0          0          0          0
2  2 finished          0          0          0          0          0          0          0 4294967294
3  1 ready             0          0          0          0          0          0          0          1
";
    for call in [page, quick::page] {
        let laid = written(call, 816, &table, &[0, 0, 2, 2, 3]);
        assert_eq!(String::from_utf8(laid).unwrap(), wanted);
    }
}
