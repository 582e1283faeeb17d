//! What drawn schedules must have shown: every rank among every number of ready actors, numbers that run over
//! 32 bits, every ending, the shortest and the longest.

use crate::harness::demands::Demands;
use crate::harness::slots::Input;
use crate::harness::tally::Tally;
use crate::inputs::seeds::CORNERS;
use crate::inputs::walk::Walk;
use reference::{Action, SCHEDULE_MOST, Status, Table, check};
use std::collections::BTreeSet;
use std::fmt;
use tables::layout::MOST;

/// Something that a draw can show.
#[derive(Clone, Copy, PartialEq, Eq, PartialOrd, Ord)]
enum Sight {
    /// This seed.
    Seed(u32),
    /// So many actors in the table.
    Actors(u32),
    /// A rank taken among so many ready actors.
    Rank { rank: u32, ready: u32 },
    /// A draw among several right after one that had no choice.
    SeveralAfterOne,
    /// Whether the product passes 32 bits, and whether the sum with what is left of it does.
    Passes { product: bool, sum: bool },
    /// How it ended.
    End(End),
    /// No entry, and how it ended.
    Empty(End),
    /// As many entries as can be, and whether there was more room.
    Longest { more: bool },
}

/// How a schedule ended: what those wait for that are left, and whether some are over. Finished where
/// there is none.
#[derive(Clone, Copy, PartialEq, Eq, PartialOrd, Ord)]
struct End {
    mailbox: bool,
    mutex: bool,
    over: bool,
}

impl End {
    const FINISHED: Self = Self::of([false; 3]);

    const fn of([mailbox, mutex, over]: [bool; 3]) -> Self {
        Self {
            mailbox,
            mutex,
            over,
        }
    }

    fn all() -> [Self; 8] {
        std::array::from_fn(|bits| Self::of([1, 2, 4].map(|bit| bits & bit > 0)))
    }

    /// How a walk ends, at whose end nobody is ready.
    fn of_walk(table: &Table, walk: &Walk) -> Self {
        let mut end = Self::FINISHED;
        for (actor, position) in walk.positions().into_iter().enumerate().take(table.actors()) {
            match walk.status(actor) {
                Status::Waits => match table.action(actor, position) {
                    Action::WaitAny { .. } => end.mailbox = true,
                    _ => end.mutex = true,
                },
                Status::Over => end.over = true,
                Status::Finished | Status::Ready => {}
            }
        }
        end
    }
}

impl Sight {
    /// All that must have been shown.
    fn all() -> impl Iterator<Item = Self> {
        let most = u32::from(MOST);
        let seeds = CORNERS.map(Self::Seed);
        let actors = (1..=most).map(Self::Actors);
        let ranks =
            (1..=most).flat_map(|ready| (0..ready).map(move |rank| Self::Rank { rank, ready }));
        let both = [false, true];
        let passes = both.map(|product| both.map(|sum| Self::Passes { product, sum }));
        let stuck_at_once = End::of([false, true, false]);
        let empty = [End::FINISHED, stuck_at_once].map(Self::Empty);
        let longest = both.map(|more| Self::Longest { more });
        let ends = End::all().map(Self::End);
        let corners = [Self::SeveralAfterOne].into_iter().chain(empty);
        let all = seeds.into_iter().chain(actors).chain(ranks).chain(ends);
        all.chain(passes.into_iter().flatten())
            .chain(corners)
            .chain(longest)
    }

    /// What a drawn schedule shows, each once.
    fn shown(input: &Input, schedule: &[u8]) -> BTreeSet<Self> {
        let (seed, room) = (input.numbers[0], input.bytes.len());
        let table = check(&input.read[0]).expect("the table is accepted");
        let mut shown = BTreeSet::from([Self::Actors(table.actors() as u32)]);
        if CORNERS.contains(&seed) {
            shown.insert(Self::Seed(seed));
        }
        let mut walk = Walk::new(&table);
        let (mut x, mut before) = (u64::from(seed), 0);
        for &actor in schedule {
            let mask = walk.ready();
            let ready = mask.count_ones();
            let rank = (mask & ((1 << actor) - 1)).count_ones();
            shown.insert(Self::Rank { rank, ready });
            if before == 1 && ready > 1 {
                shown.insert(Self::SeveralAfterOne);
            }
            before = ready;
            shown.insert(passes(&mut x));
            walk.step(usize::from(actor));
        }
        let end = End::of_walk(&table, &walk);
        shown.insert(Self::End(end));
        match schedule.len() {
            0 => shown.insert(Self::Empty(end)),
            SCHEDULE_MOST => shown.insert(Self::Longest {
                more: room > SCHEDULE_MOST,
            }),
            _ => false,
        };
        shown
    }
}

/// What the next draw's numbers pass; x is then replaced.
fn passes(x: &mut u64) -> Sight {
    let product = 1_664_525 * *x;
    let sum = product % (1 << 32) + 1_013_904_223;
    *x = sum % (1 << 32);
    Sight::Passes {
        product: product >> 32 > 0,
        sum: sum >> 32 > 0,
    }
}

impl fmt::Display for End {
    fn fmt(&self, f: &mut fmt::Formatter<'_>) -> fmt::Result {
        let left = [
            (self.mailbox, "a mailbox awaited"),
            (self.mutex, "a mutex awaited"),
            (self.over, "a total over"),
        ];
        let left: Vec<&str> = left
            .into_iter()
            .filter_map(|(is, word)| is.then_some(word))
            .collect();
        match left.is_empty() {
            true => write!(f, "finished"),
            false => write!(f, "stuck, {}", left.join(", ")),
        }
    }
}

impl fmt::Display for Sight {
    fn fmt(&self, f: &mut fmt::Formatter<'_>) -> fmt::Result {
        let passes = |does| if does { "passes" } else { "fits" };
        match self {
            Self::Seed(seed) => write!(f, "seed {seed}"),
            Self::Actors(count) => write!(f, "actors: {count}"),
            Self::Rank { rank, ready } => write!(f, "rank {rank} of {ready}"),
            Self::SeveralAfterOne => write!(f, "several ready right after one alone"),
            Self::Passes { product, sum } => {
                let (product, sum) = (passes(*product), passes(*sum));
                write!(f, "the product {product} 32 bits, the sum {sum}")
            }
            Self::End(end) => write!(f, "{end}"),
            Self::Empty(end) => write!(f, "no entries, {end}"),
            Self::Longest { more: false } => write!(f, "{SCHEDULE_MOST} entries, no more lent"),
            Self::Longest { more: true } => write!(f, "{SCHEDULE_MOST} entries, more lent"),
        }
    }
}

/// What must have been met, and how often.
pub fn demands(demands: Demands) -> Demands {
    let all: Vec<String> = Sight::all().map(|sight| sight.to_string()).collect();
    demands.notes(&all, 100)
}

/// Notes what a drawn schedule shows, each once.
pub fn note(tally: &mut Tally, input: &Input, schedule: &[u8]) {
    for sight in Sight::shown(input, schedule) {
        tally.note(&sight.to_string());
    }
}
