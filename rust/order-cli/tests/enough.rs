//! The bytes that are read of a table and a schedule settle every answer.

use compare::inputs::damage::scatter;
use compare::inputs::rng::Rng;
use compare::inputs::sample::{Sample, Shape};
use order_cli::source::ENOUGH;
use order_engine::{PAGE_ROOM, REPORT_ROOM, Refusal, SCHEDULE_MOST};
use order_engine::{check, draw, page, prefix, ready, route, run, same};
use std::collections::HashSet;

/// What is read of it.
fn begin(bytes: &[u8]) -> &[u8] {
    &bytes[..bytes.len().min(ENOUGH)]
}

/// Up to some thousand bytes more.
fn longer(rng: &mut Rng, bytes: &[u8], most: usize) -> Vec<u8> {
    let more = rng.below(5_000);
    let tail = (0..more).map(|_| rng.below(most) as u8);
    bytes.iter().copied().chain(tail).collect()
}

#[test]
fn of_a_table() {
    let mut rng = Rng::new(6);
    let mut met = HashSet::new();
    for _ in 0..20_000 {
        let shape = Shape::any(&mut rng);
        let mut table = Sample::new(&mut rng, shape).bytes;
        if rng.once_in(2) {
            scatter(&mut rng, &mut table);
        }
        if rng.once_in(2) {
            table = longer(&mut rng, &table, 256);
        }
        let answer = check(&table);
        assert_eq!(answer, check(begin(&table)));
        let number = answer.map_or_else(|refusal| refusal.number(), |()| 0);
        met.insert((number, table.len() > ENOUGH));
    }
    for number in [2, 3, 4, 5] {
        assert!(met.contains(&(number, true)), "{number}");
    }
}

/// What every call on one schedule answers.
fn answers(table: &[u8], schedule: &[u8]) -> [Result<Vec<u8>, Refusal>; 3] {
    let (mut report, mut text) = ([0; REPORT_ROOM], [0; PAGE_ROOM]);
    [
        run(table, schedule, &mut report).map(|report| report.bytes().to_vec()),
        page(table, schedule, &mut text).map(|page| page.as_bytes().to_vec()),
        ready(table, schedule).map(|ready| ready.mask.to_le_bytes().to_vec()),
    ]
}

#[test]
fn of_schedules() {
    let mut rng = Rng::new(7);
    let mut met = HashSet::new();
    for _ in 0..5_000 {
        let shape = Shape::any(&mut rng);
        let table = Sample::new(&mut rng, shape).bytes;
        let schedules = [(); 2].map(|()| {
            let mut buffer = [0; SCHEDULE_MOST];
            let drawn = draw(&table, rng.bits() as u32, &mut buffer).expect("an accepted table");
            let part = rng.between(0, drawn.len());
            match rng.below(3) {
                0 => drawn.to_vec(),
                1 => drawn[..part].to_vec(),
                _ => longer(&mut rng, drawn, 8),
            }
        });
        let [first, second] = &schedules;
        assert_eq!(answers(&table, first), answers(&table, begin(first)));
        for verdict in [same, prefix] {
            let answer = verdict(&table, first, second);
            assert_eq!(answer, verdict(&table, begin(first), begin(second)));
            let number = answer.map_or_else(|refusal| refusal.number(), |_| 0);
            met.insert((number, first.len() > ENOUGH, second.len() > ENOUGH));
        }
        let (mut one, mut other) = ([0; 32_640], [0; 32_640]);
        assert_eq!(
            route(&table, first, second, &mut one),
            route(&table, begin(first), begin(second), &mut other)
        );
    }
    for lengths in [(0, true, false), (0, false, true), (12, true, true)] {
        assert!(met.contains(&lengths), "{lengths:?}");
    }
}
