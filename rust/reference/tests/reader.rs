//! The reader against document 01: table A, cases (i) and (j), and a case for each condition.

use reference::{Action, Refusal, check, validate};
use tables::TABLE_A as A;

/// Number and position of the refusal, 0 and 0 where accepted.
fn answer(table: &[u8]) -> (u32, u32) {
    match validate(table) {
        Ok(()) => (0, 0),
        Err(refusal) => (refusal.number(), refusal.position),
    }
}

/// A with some bytes replaced.
fn with(changes: &[(usize, u8)]) -> Vec<u8> {
    let mut table = A.to_vec();
    for &(at, byte) in changes {
        table[at] = byte;
    }
    table
}

/// The answer for one actor with these actions, two mailboxes and three mutexes.
fn one_actor(actions: &[[u8; 8]]) -> (u32, u32) {
    let mut table = vec![1, 1, 2, 3, 8, 0, actions.len() as u8, 0];
    table.extend(actions.as_flattened());
    answer(&table)
}

#[test]
fn table_a_is_accepted() {
    let table = check(&A).unwrap();
    assert_eq!(table.bytes(), A);
    assert_eq!(
        (table.actors(), table.mailboxes(), table.mutexes()),
        (2, 1, 0)
    );
    assert_eq!((table.actions(0), table.actions(1)), (2, 2));
    let set = Action::Set {
        cell: 0,
        value: 149,
    };
    let send = Action::Send {
        mailbox: 0,
        cell: 0,
    };
    let receive = Action::Receive {
        mailbox: 0,
        cell: 2,
    };
    assert_eq!(table.action(0, 0), set);
    assert_eq!(table.action(0, 1), send);
    assert_eq!(table.action(1, 0), receive);
    let Action::WaitAny { result, actions } = table.action(1, 1) else {
        panic!("the last action waits");
    };
    assert_eq!((result, actions.numbers()), (3, &[0][..]));
}

#[test]
fn case_i() {
    assert_eq!(answer(&A[..43]), (5, 0));
    assert_eq!(answer(&with(&[(12, 255)])), (6, 12));
}

#[test]
fn case_j() {
    assert_eq!(answer(&with(&[(39, 0)])), (7, 36));
    assert_eq!(answer(&with(&[(40, 1)])), (8, 36));
}

#[test]
fn header_and_directory() {
    for length in 0..4 {
        assert_eq!(answer(&A[..length]), (1, 0));
    }
    assert_eq!(answer(&with(&[(0, 0), (1, 0)])), (2, 0));
    for change in [(1, 0), (1, 9), (2, 9), (3, 9)] {
        assert_eq!(answer(&with(&[change])), (3, 0));
    }
    for length in 4..12 {
        assert_eq!(answer(&A[..length]), (4, 0));
    }
    for change in [(4, 13), (5, 1), (8, 27), (6, 3), (6, 33), (7, 1), (11, 1)] {
        assert_eq!(answer(&with(&[change])), (4, 0));
    }
    assert_eq!(answer(&with(&[(10, 1)])), (5, 0));
    assert_eq!(answer(&with(&[(10, 3)])), (5, 0));
    assert_eq!(answer(&[&A[..], &[0]].concat()), (5, 0));
}

#[test]
fn an_earlier_action_comes_first() {
    // Byte 15 is z of a Set: unused. Byte 20 is the next action's kind.
    assert_eq!(answer(&with(&[(15, 1), (20, 12)])), (9, 12));
    assert_eq!(answer(&with(&[(20, 12), (39, 0)])), (6, 20));
}

#[test]
fn ranges_by_kind() {
    for (fits, over) in [
        ([0, 7, 0, 0, 255, 255, 255, 255], [0, 8, 0, 0, 0, 0, 0, 0]),
        ([1, 7, 7, 0, 0, 0, 0, 0], [1, 7, 8, 0, 0, 0, 0, 0]),
        ([2, 7, 7, 0, 0, 0, 0, 0], [2, 8, 7, 0, 0, 0, 0, 0]),
        ([3, 1, 7, 0, 0, 0, 0, 0], [3, 2, 7, 0, 0, 0, 0, 0]),
        ([4, 1, 7, 0, 0, 0, 0, 0], [4, 1, 8, 0, 0, 0, 0, 0]),
        ([7, 2, 0, 0, 0, 0, 0, 0], [7, 3, 0, 0, 0, 0, 0, 0]),
        ([8, 2, 0, 0, 0, 0, 0, 0], [8, 3, 0, 0, 0, 0, 0, 0]),
        ([9, 7, 0, 4, 2, 2, 0, 1], [9, 7, 0, 5, 2, 2, 0, 1]),
        ([10, 7, 0, 1, 2, 0, 0, 0], [10, 7, 0, 1, 3, 0, 0, 0]),
    ] {
        assert_eq!(one_actor(&[fits]), (0, 0));
        assert_eq!(one_actor(&[over]), (7, 8));
    }
}

#[test]
fn listed_actions() {
    let send = [3, 0, 0, 0, 0, 0, 0, 0];
    let set = [0; 8];
    let list = |z, a, b, c, d| [5, 0, 0, z, a, b, c, d];
    assert_eq!(one_actor(&[send, set, list(4, 0, 0, 0, 0)]), (0, 0));
    // Not of kind 3 or 4, the action itself, a higher one, none such.
    for number in [1, 2, 3, 4, 32, 64, 255] {
        let actions = [send, set, list(2, 0, number, 0, 0), send];
        assert_eq!(one_actor(&actions), (8, 24));
    }
    // Places after the z-th are unused, not listed.
    assert_eq!(one_actor(&[send, set, list(1, 0, 1, 0, 0)]), (9, 24));
}

#[test]
fn unused_bytes() {
    let send = [3, 0, 0, 0, 0, 0, 0, 0];
    for (form, unused) in [
        ([0, 0, 0, 0, 1, 1, 1, 1], &[2, 3][..]),
        ([1, 0, 1, 0, 0, 0, 0, 0], &[3, 4, 5, 6, 7]),
        ([2, 0, 1, 0, 0, 0, 0, 0], &[3, 4, 5, 6, 7]),
        ([3, 0, 1, 0, 0, 0, 0, 0], &[3, 4, 5, 6, 7]),
        ([4, 0, 1, 0, 0, 0, 0, 0], &[3, 4, 5, 6, 7]),
        ([5, 0, 0, 2, 0, 0, 0, 0], &[2, 6, 7]),
        ([6, 0, 0, 4, 0, 0, 0, 0], &[2]),
        ([7, 0, 0, 0, 0, 0, 0, 0], &[2, 3, 4, 5, 6, 7]),
        ([8, 0, 0, 0, 0, 0, 0, 0], &[2, 3, 4, 5, 6, 7]),
        ([9, 0, 0, 1, 0, 0, 0, 0], &[2, 5, 6, 7]),
        ([10, 0, 0, 3, 0, 0, 0, 0], &[2, 7]),
    ] {
        assert_eq!(one_actor(&[send, form]), (0, 0));
        for &at in unused {
            let mut action = form;
            action[at] = 1;
            assert_eq!(one_actor(&[send, action]), (9, 16), "{action:?}");
        }
    }
}

#[test]
fn reasons_of_one_action_in_order() {
    // A listed action that is not allowed, with p out of range, then with q not 0.
    assert_eq!(one_actor(&[[5, 8, 0, 1, 0, 0, 0, 0]]), (7, 8));
    assert_eq!(one_actor(&[[5, 0, 1, 1, 0, 0, 0, 1]]), (8, 8));
    // A listed mutex that does not exist, with q not 0.
    assert_eq!(one_actor(&[[9, 0, 1, 1, 3, 0, 0, 1]]), (7, 8));
    assert_eq!(one_actor(&[[9, 0, 1, 1, 2, 0, 0, 0]]), (9, 8));
    assert_eq!(one_actor(&[[255; 8]]), (6, 8));
}

#[test]
fn the_largest_and_the_smallest() {
    let mut table = vec![1, 8, 0, 0];
    for actor in 0..8u16 {
        table.extend((36 + 256 * actor).to_le_bytes());
        table.extend(32u16.to_le_bytes());
    }
    table.resize(2084, 0);
    assert_eq!(answer(&table), (0, 0));
    table[2083 - 7] = 12;
    assert_eq!(answer(&table), (6, 2076));
    assert_eq!(answer(&[1, 1, 0, 0, 8, 0, 0, 0]), (0, 0));
}

#[test]
fn check_refuses_as_validate_does() {
    let refusal: Refusal = check(&A[..43]).unwrap_err();
    assert_eq!(validate(&A[..43]), Err(refusal));
}
