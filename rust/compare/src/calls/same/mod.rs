//! The same verdict and the number of pairs compared. The verdict is on short schedules also held to a search
//! through all chains; where it says "same", both schedules must lead to one report and one ready answer. The
//! number is held to the pair that it tells.

pub mod differing;
mod reversed;

use crate::calls::notes::journal;
use crate::calls::{compared, locks, notes, totals};
use crate::harness::asked::Asked;
use crate::harness::call::Call;
use crate::harness::slots::{Buffer, FIRST, Lent, SECOND, Slots, TABLE};
use crate::harness::tally::Tally;
use crate::inputs::twins::Twins;
use crate::workload::{Load, Measure};
use order_engine::{Fields, REPORT_ROOM, same};
use reference::{Reason, Refusal, Same, chain_exists, check, quick};

/// The same verdict.
pub const CALL: Call = Call {
    name: "same",
    about: "the same verdict and the pairs compared",
    slots: Slots {
        read: &[TABLE, FIRST, SECOND],
        numbers: &[],
        buffer: Buffer::None,
    },
    refusals: &[&Reason::OF_TABLE, &Reason::OF_FIRST, &Reason::OF_SECOND],
    cases: 130_000,
    next: |rng, input| input.read = Twins::any(rng).slices(),
    sweep: compared::sweep,
    engine: |lent| {
        let [table, first, second] = lent.read;
        order_engine::same::fields(table, first, second).into()
    },
    reference: |lent: Lent| {
        let [table, first, second] = lent.read;
        let answer = reference::same(table, first, second);
        answer.map(numbers).into()
    },
    mistake: |asked| mistake(asked, asked.input.slices()),
    note,
    demands: |demands, tally| {
        let quarter = tally.accepted() / 4;
        let tenth = tally.noted(DIFFERENT) / 10;
        let demands = journal::demands(demands, 20);
        let demands = notes::exchanges::demands(demands, 50);
        let demands = locks::exchanges::demands(demands, 50);
        let demands = locks::queues::demands(demands, 20);
        let demands = compared::corners::demands(demands, 10);
        let demands = compared::corners::demands_of_lengths(demands, 10);
        totals::demands(demands, &[Reason::Over, Reason::SecondOver], 100)
            .accepted(100_000)
            .refused(&Reason::OF_TABLE, 100)
            .places(&Reason::OF_FIRST, 200)
            .places(&Reason::OF_SECOND, 200)
            .notes(&[SAME, DIFFERENT], quarter)
            .notes(&[ALIKE], quarter / 2)
            .notes(&[FIRST_SHORTER, SECOND_SHORTER], tenth)
            .notes(&[SEARCHED_SAME, SEARCHED_DIFFERENT], 5_000)
            .notes(&[LONG], 500)
            .kinds(reversed::dependent_kinds(), 100)
    },
};

/// The longest schedules for which all chains are searched.
const SEARCHED: usize = 7;

const SAME: &str = "same";
const DIFFERENT: &str = "different";
const ALIKE: &str = "different, with equal names";
const FIRST_SHORTER: &str = "different, the first shorter";
const SECOND_SHORTER: &str = "different, the second shorter";
const SEARCHED_SAME: &str = "same, all chains searched";
const SEARCHED_DIFFERENT: &str = "different, all chains searched";
const LONG: &str = "of 256 entries";

/// An answer as the C struct has it.
pub fn numbers(answer: Same) -> [u32; 2] {
    [u32::from(answer.is_same), answer.pairs]
}

/// Unequal answers to whether these two schedules are the same; a number that tells another pair than the
/// first in opposite orders; a search through all chains that finds otherwise; two ends of one run.
pub fn mistake(asked: &Asked, [table, first, second]: [&[u8]; 3]) -> Option<String> {
    let unequal = asked.unequal();
    if unequal.is_some() || !asked.accepted() {
        return unequal;
    }
    let [verdict, pairs, _] = asked.engine.values;
    if let Some(wrong) = compared::told::wrong(verdict, pairs, [table, first, second]) {
        return Some(wrong);
    }
    let same = verdict == 1;
    if searched(first) {
        let table = check(table).expect("the table is accepted");
        let found = chain_exists(&table, first, second);
        if found != same {
            return Some(format!("a search through all chains says {found}"));
        }
    }
    same.then(|| two_ends(table, first, second)).flatten()
}

/// Where two schedules of one run end otherwise, by either engine.
fn two_ends(table: &[u8], first: &[u8], second: &[u8]) -> Option<String> {
    let ours = |schedule: &[u8]| {
        let mut buffer = [0; REPORT_ROOM];
        let answer = order_engine::run::fields(table, schedule, &mut buffer);
        (answer, buffer, order_engine::ready::fields(table, schedule))
    };
    if ours(first) != ours(second) {
        return Some("the engine's two ends differ".to_string());
    }
    let theirs = |schedule: &[u8]| {
        let mut buffer = [0; REPORT_ROOM];
        let answer = reference::run(table, schedule, &mut buffer);
        (answer, buffer, reference::ready(table, schedule))
    };
    (theirs(first) != theirs(second)).then(|| "the reference's two ends differ".to_string())
}

/// Whether all chains from an accepted schedule are searched.
fn searched(first: &[u8]) -> bool {
    first.len() <= SEARCHED
}

fn note(tally: &mut Tally, asked: &Asked) {
    totals::note(tally, asked);
    if !asked.accepted() {
        return;
    }
    let [table, first, second] = &asked.input.read;
    let [verdict, pairs, _] = asked.reference.values;
    let same = verdict == 1;
    compared::corners::note(tally, [verdict, pairs], asked.input.slices());
    journal::note(tally, table, first);
    notes::exchanges::note(tally, asked.input.slices(), same);
    locks::exchanges::note(tally, asked.input.slices(), same);
    locks::queues::note(tally, table, first);
    tally.note(if same { SAME } else { DIFFERENT });
    if searched(first) {
        tally.note(if same {
            SEARCHED_SAME
        } else {
            SEARCHED_DIFFERENT
        });
    }
    if first.len() == 256 && second.len() == 256 {
        tally.note(LONG);
    }
    if same {
        return;
    }
    if first.len() < second.len() {
        tally.note(FIRST_SHORTER);
    }
    if second.len() < first.len() {
        tally.note(SECOND_SHORTER);
    }
    let sorted = |schedule: &[u8]| {
        let mut schedule = schedule.to_vec();
        schedule.sort_unstable();
        schedule
    };
    if sorted(first) == sorted(second) {
        tally.note(ALIKE);
        reversed::note(tally, table, first, second);
    }
}

/// Measures it on a load.
pub fn measure(measure: &mut impl Measure, load: &Load) {
    measure.measure(
        CALL.name,
        load,
        |work| by_engine(same::fields(&work.table, &work.first, &work.second)),
        |work| by_reference(quick::same(&work.table, &work.first, &work.second)),
    );
}

/// The engine's accepted answer as a number.
pub fn by_engine(answer: Fields<2>) -> usize {
    let [verdict, pairs] = answer.values;
    (2 * pairs + verdict) as usize
}

/// The reference's.
pub fn by_reference(answer: Result<Same, Refusal>) -> usize {
    let [verdict, pairs] = numbers(answer.expect("accepted"));
    (2 * pairs + verdict) as usize
}
