//! What every call is held to, with engines made up for each mistake: it is found, and shown with its
//! input.

use compare::calls::{draw, remainder, run, same};
use compare::harness::call::Call;
use compare::harness::sides::difference;
use compare::harness::slots::{Input, Lent};
use reference::{REPORT_ROOM, SCHEDULE_MOST};
use tables::action::send;
use tables::{Layout, TABLE_A};

/// A run of table A with more room than its report takes.
fn input(schedule: &[u8]) -> Input {
    Input {
        read: [TABLE_A.to_vec(), schedule.to_vec(), Vec::new()],
        bytes: vec![7; REPORT_ROOM + 5],
        ..Input::default()
    }
}

/// What is said of the engine's answer to an input.
fn said(call: &'static Call, input: &Input) -> String {
    difference(call, input).expect("a difference").to_string()
}

/// The reference's answer, and a byte changed.
fn spoilt(lent: Lent, at: usize) -> compare::harness::answer::Answer {
    let Lent { read, bytes, .. } = lent;
    let answer = reference::run(read[0], read[1], bytes);
    bytes[at] ^= 1;
    answer.map(|length| [length as u32]).into()
}

#[test]
fn a_right_engine_has_no_difference() {
    for schedule in [&[0, 1, 0, 1][..], &[1, 1]] {
        assert!(difference(&run::CALL, &input(schedule)).is_none());
    }
}

#[test]
fn a_wrong_byte_of_the_report() {
    static WRONG: Call = Call {
        engine: |lent| spoilt(lent, 42),
        ..run::CALL
    };
    assert!(said(&WRONG, &input(&[0, 1, 0, 1])).contains("lent 42: engine 148, reference 149"));
}

#[test]
fn a_byte_after_the_report() {
    static WRONG: Call = Call {
        engine: |lent| spoilt(lent, 102),
        // Even where the reference makes the same mistake.
        reference: |lent| spoilt(lent, 102),
        ..run::CALL
    };
    let said = said(&WRONG, &input(&[0, 1, 0, 1]));
    assert!(said.contains("report buffer: index 102 changed, 102 were to be written"));
}

#[test]
fn a_byte_at_a_refusal() {
    static WRONG: Call = Call {
        engine: |lent| spoilt(lent, 0),
        reference: |lent| spoilt(lent, 0),
        ..run::CALL
    };
    let said = said(&WRONG, &input(&[1, 1]));
    assert!(said.contains("report buffer: index 0 changed, 0 were to be written"));
}

#[test]
fn more_written_than_lent() {
    static WRONG: Call = Call {
        engine: |_| Ok([u32::MAX]).into(),
        ..run::CALL
    };
    assert!(said(&WRONG, &input(&[])).contains("written of 4519 lent"));
}

#[test]
fn a_number_beside_a_refusal() {
    static WRONG: Call = Call {
        engine: |lent| {
            let mut answer = (same::CALL.engine)(lent);
            answer.values[0] = 1;
            answer
        },
        ..same::CALL
    };
    let said = said(&WRONG, &input(&[1, 1]));
    assert!(said.contains("refused 13 at 1 with values [1, 0, 0] that have to be 0"));
}

#[test]
fn a_number_that_tells_another_pair() {
    static WRONG: Call = Call {
        engine: |_| Ok([0, 3]).into(),
        // Even where the reference makes the same mistake.
        reference: |_| Ok([0, 3]).into(),
        ..same::CALL
    };
    let sender = [send(0, 0)];
    let table = Layout::new(1, 0, &[&sender[..]; 3]).bytes();
    let asked = |second: [u8; 3]| Input {
        read: [table.clone(), vec![0, 1, 2], second.to_vec()],
        ..Input::default()
    };
    let said = said(&WRONG, &asked([2, 0, 1]));
    assert!(
        said.contains("mistake:          the number tells"),
        "{said}"
    );
    assert!(difference(&WRONG, &asked([0, 2, 1])).is_none());
    assert!(difference(&same::CALL, &asked([2, 0, 1])).is_none());
}

#[test]
fn a_remainder_of_the_other_recording() {
    static WRONG: Call = Call {
        engine: |lent| {
            let mut answer = (remainder::CALL.engine)(lent);
            answer.values[0] = 3 - answer.values[0];
            answer
        },
        ..remainder::CALL
    };
    let input = Input {
        read: [vec![0, 1], vec![1, 0], Vec::new()],
        ..Input::default()
    };
    let said = said(&WRONG, &input);
    assert!(said.contains("engine:           accepted, values [2, 2, 0]"));
    assert!(said.contains("reference:        accepted, values [1, 2, 0]"));
    assert!(difference(&remainder::CALL, &input).is_none());
}

/// Table A and a seed.
fn seeded(seed: u32) -> Input {
    Input {
        read: [TABLE_A.to_vec(), Vec::new(), Vec::new()],
        numbers: [seed, 0, 0, 0],
        bytes: vec![7; SCHEDULE_MOST + 5],
        ..Input::default()
    }
}

/// A draw of another seed, of which the last entries are left out.
fn drawn(lent: Lent, other: u32, left_out: usize) -> compare::harness::answer::Answer {
    let mut whole = [0; SCHEDULE_MOST];
    let length = reference::draw(lent.read[0], lent.numbers[0] + other, &mut whole);
    let length = length.map(|length| length - left_out);
    if let Ok(length) = length {
        lent.bytes[..length].copy_from_slice(&whole[..length]);
    }
    length.map(|length| [length as u32]).into()
}

#[test]
fn a_draw_that_ends_too_early() {
    static WRONG: Call = Call {
        engine: |lent| drawn(lent, 0, 1),
        // Even where the reference makes the same mistake.
        reference: |lent| drawn(lent, 0, 1),
        ..draw::CALL
    };
    let said = said(&WRONG, &seeded(4));
    assert!(said.contains("somebody is ready at the end"), "{said}");
    assert!(said.contains("seed:             4"), "{said}");
    assert!(difference(&draw::CALL, &seeded(4)).is_none());
}

#[test]
fn a_draw_of_another_seed() {
    static WRONG: Call = Call {
        engine: |lent| drawn(lent, 2, 0),
        reference: |lent| drawn(lent, 2, 0),
        ..draw::CALL
    };
    let said = said(&WRONG, &seeded(0));
    assert!(said.contains("drawn again: [0, 0, 1, 1]"), "{said}");
}

#[test]
fn a_panic_comes_with_its_input() {
    static WRONG: Call = Call {
        engine: |_| panic!("made up"),
        ..run::CALL
    };
    let said = said(&WRONG, &input(&[0, 1]));
    assert!(said.contains("made up"), "{said}");
    assert!(
        said.contains("schedule:         2 entries: [0, 1]"),
        "{said}"
    );
    assert!(said.contains("44 bytes: 01 02 01 00 0c"), "{said}");
}
