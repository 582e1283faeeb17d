//! Shrinking, with a mistake made up for each: what is left is what it takes.

use compare::calls::{check, draw, prefix, remainder, run};
use compare::harness::call::Call;
use compare::harness::shrink::shrink;
use compare::harness::slots::Input;
use compare::inputs::rng::Rng;
use reference::{Action, Schedule, Site, follow};

/// The first random input of a call that is large and on which `differs` holds, shrunk.
fn shrunk(call: &Call, mut differs: impl FnMut(&Input) -> bool) -> Input {
    let mut rng = Rng::new(7);
    let mut input = Input::default();
    loop {
        (call.next)(&mut rng, &mut input);
        let lengths = input.read.each_ref().map(Vec::len);
        if lengths.iter().sum::<usize>() > 400 && differs(&input) {
            return shrink(input, &call.slots, &mut differs);
        }
    }
}

/// The site that a schedule leads to, if it is accepted.
fn site(input: &Input) -> Option<Site> {
    let table = reference::check(&input.read[0]).ok()?;
    let mut site = Site::fresh();
    follow(
        &table,
        Schedule::First,
        &input.read[1],
        &mut site,
        |_, _| {},
    )
    .ok()?;
    Some(site)
}

#[test]
fn two_actors_queued_for_one_mutex() {
    let queued = |input: &Input| {
        site(input).is_some_and(|site| (0..8).any(|mutex| site.mutex(mutex).len() == 2))
    };
    let least = shrunk(&run::CALL, queued);
    let lock = [7, 0, 0, 0, 0, 0, 0, 0];
    let head = [1, 2, 0, 1, 12, 0, 1, 0, 20, 0, 1, 0];
    assert_eq!(least.read[0], [&head[..], &lock, &lock].concat());
    assert!(least.read[1] == [0, 1] || least.read[1] == [1, 0]);
    assert!(least.bytes.is_empty());
}

#[test]
fn a_value_received_and_picked_up() {
    let picked_up = |input: &Input| {
        let Ok(table) = reference::check(&input.read[0]) else {
            return false;
        };
        let waits = (0..table.actors()).any(|actor| {
            let count = site(input).map_or(0, |site| site.actor(actor).position);
            (0..count).any(|k| matches!(table.action(actor, k), Action::WaitAny { .. }))
        });
        waits && site(input).is_some()
    };
    let least = shrunk(&run::CALL, picked_up);
    // A Send, a Receive and a Wait for either.
    assert!(least.read[0].len() <= 12 + 3 * 8, "{least:?}");
    assert_eq!(least.read[1].len(), 3);
    assert_eq!(least.read[0][2..4], [1, 0]);
}

#[test]
fn a_bad_entry_after_the_cut() {
    let stepped = |input: &Input| {
        let [table, first, second] = input.slices();
        let answers = [reference::prefix, reference::same].map(|call| call(table, first, second));
        answers[0].is_ok_and(|same| same.is_same)
            && answers[1].is_err_and(|refusal| refusal.number() == 14)
    };
    let least = shrunk(&prefix::CALL, stepped);
    assert_eq!(least.read[0], [1, 1, 0, 0, 8, 0, 0, 0]);
    assert_eq!(least.read[1..], [vec![], vec![1]]);
}

#[test]
fn recordings_of_equal_lengths() {
    let equal = |input: &Input| {
        let [first, second, _] = input.slices();
        first.len() == second.len() && first.len() >= 2
    };
    let least = shrunk(&remainder::CALL, equal);
    assert_eq!(least.read, [vec![0; 2], vec![0; 2], vec![]]);
}

#[test]
fn a_seed_and_the_room_to_draw() {
    let drawn = |input: &Input| {
        let (mut buffer, seed) = (input.bytes.clone(), input.numbers[0]);
        let drawn = reference::draw(&input.read[0], seed, &mut buffer);
        seed >= 3 && drawn.is_ok_and(|length| length >= 2)
    };
    let least = shrunk(&draw::CALL, drawn);
    assert_eq!(least.read[0].len(), 8 + 2 * 8);
    assert_eq!(least.numbers, [3, 0, 0, 0]);
    assert_eq!(least.bytes, [0; 256]);
}

#[test]
fn a_refused_table() {
    let unused = |input: &Input| {
        let answer = reference::validate(&input.read[0]);
        answer.is_err_and(|refusal| refusal.number() == 9)
    };
    let least = shrunk(&check::CALL, unused);
    assert_eq!(least.read[0].len(), 16);
    assert_eq!(
        least.read[0]
            .iter()
            .skip(8)
            .filter(|&&byte| byte > 0)
            .count(),
        1
    );
    let kind = |input: &Input| {
        let answer = reference::validate(&input.read[0]);
        answer.is_err_and(|refusal| refusal.number() == 6)
    };
    let least = shrunk(&check::CALL, kind);
    assert_eq!(
        least.read[0],
        [1, 1, 0, 0, 8, 0, 1, 0, 12, 0, 0, 0, 0, 0, 0, 0]
    );
}
