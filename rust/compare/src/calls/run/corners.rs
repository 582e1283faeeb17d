//! What accepted runs must have met: full queues, the longest report, the last place of each list,
//! values at their corners.

use crate::harness::demands::Demands;
use crate::harness::tally::Tally;
use crate::inputs::sample::CORNERS;
use reference::{Action, Site, Table, check};
use tables::layout::MOST;
use tables::{Kind, Rest, action};

const LONG: &str = "256 entries accepted";
const LONGEST_REPORT: &str = "report of 3,874 bytes";
const REPORT_OF_A: &str = "report of 102 bytes";
const MAILBOX: &str = "mailbox queued";
const FULL_MAILBOX: &str = "mailbox queued by 256";
const MUTEX: &str = "mutex queued by two";
const FULL_MUTEX: &str = "mutex queued by 8";
const OWNER_LEAVES: &str = "owner of 8 leaves";

/// The longest report that a run can have: every action is a Note.
const LONGEST: u32 = 3_874;
/// The length of table A's report at its end.
const OF_A: u32 = 102;

/// What must have been met, and how often.
pub fn demands(demands: Demands) -> Demands {
    let demands = demands
        .notes(&[LONG], 1_000)
        .notes(&[MAILBOX, MUTEX], 10_000)
        .notes(
            &[FULL_MAILBOX, FULL_MUTEX, OWNER_LEAVES, LONGEST_REPORT],
            100,
        )
        .notes(&[REPORT_OF_A], 20);
    let lists = Kind::ALL.into_iter().filter(|&kind| lists(kind));
    let places: Vec<String> = lists.map(last_place).collect();
    let writes = Kind::ALL.into_iter().filter(|&kind| writes(kind));
    let corners: Vec<String> = writes
        .flat_map(|kind| CORNERS.map(|value| corner(kind, value)))
        .collect();
    demands.notes(&places, 100).notes(&corners, 100)
}

/// Whether actions of this kind list others.
fn lists(kind: Kind) -> bool {
    match kind.rest() {
        Rest::Communications | Rest::Mutexes => true,
        Rest::Nothing | Rest::Value | Rest::Cell => false,
    }
}

/// Whether steps of this kind make a value that can be anything.
fn writes(kind: Kind) -> bool {
    matches!(
        kind,
        Kind::Set | Kind::Add | Kind::Lesser | Kind::Send | Kind::Note
    )
}

fn last_place(kind: Kind) -> String {
    format!("{} finds its place 4", kind.name())
}

fn corner(kind: Kind, value: u32) -> String {
    format!("{} makes {value}", kind.name())
}

/// Notes what an accepted run was like, whose report has `length` bytes.
pub fn note(tally: &mut Tally, table: &[u8], schedule: &[u8], length: u32) {
    if schedule.len() == 256 {
        tally.note(LONG);
    }
    for (wanted, what) in [(LONGEST, LONGEST_REPORT), (OF_A, REPORT_OF_A)] {
        if length == wanted {
            tally.note(what);
        }
    }
    let table = check(table).expect("the table is accepted");
    let mut met = Met::default();
    let site = met.walk(&table, schedule);
    met.note(tally);
    let mailboxes = || (0..table.mailboxes()).map(|mailbox| site.mailbox(mailbox).len());
    let mutexes = || (0..table.mutexes()).map(|mutex| site.mutex(mutex).len());
    let ends = [
        (MAILBOX, mailboxes().any(|length| length > 0)),
        (FULL_MAILBOX, mailboxes().any(|length| length == 256)),
        (MUTEX, mutexes().any(|length| length > 1)),
        (FULL_MUTEX, mutexes().any(|length| length == usize::from(MOST))),
    ];
    for (what, _) in ends.iter().filter(|(_, met)| *met) {
        tally.note(what);
    }
}

/// What the steps of one run met.
#[derive(Default)]
struct Met {
    owner_leaves: bool,
    last_place: [bool; Kind::COUNT],
    corners: [[bool; CORNERS.len()]; Kind::COUNT],
}

impl Met {
    /// Steps along an accepted schedule and looks at each step; the site it leads to.
    fn walk(&mut self, table: &Table, schedule: &[u8]) -> Site {
        let mut site = Site::fresh();
        for &entry in schedule {
            let actor = usize::from(entry);
            let step = table.action(actor, site.actor(actor).position);
            if let Action::Unlock { mutex } = step {
                let mut queue = site.mutex(usize::from(mutex));
                let full = queue.len() == usize::from(MOST);
                let owner = queue.next().filter(|owner| owner.depth == 1);
                self.owner_leaves |= full && owner.is_some_and(|owner| owner.actor == entry);
            }
            let next = site.step(actor, &step);
            assert!(next.is_taken(), "the schedule is accepted");
            self.look(&site, actor, &step);
        }
        site
    }

    /// Looks at what a step left.
    fn look(&mut self, site: &Site, actor: usize, step: &Action) {
        let holds = |cell: u8| site.actor(actor).cell(cell);
        let last = action::LONGEST_LIST as u32;
        match *step {
            Action::Set { cell, .. } => self.made(Kind::Set, holds(cell)),
            Action::Add { cell, .. } => self.made(Kind::Add, holds(cell)),
            Action::Lesser { cell, .. } => self.made(Kind::Lesser, holds(cell)),
            Action::Send { cell, .. } => self.made(Kind::Send, holds(cell)),
            Action::Note { cell } => self.made(Kind::Note, holds(cell)),
            Action::TestAny { result, .. } => self.found(Kind::TestAny, holds(result) == last),
            Action::WaitAny { result, .. } => self.found(Kind::WaitAny, holds(result) == last),
            Action::MutexTest { result, .. } => self.found(Kind::MutexTest, holds(result) == last),
            Action::MutexWait { result, .. } => self.found(Kind::MutexWait, holds(result) == last),
            _ => {}
        }
    }

    fn made(&mut self, kind: Kind, value: u32) {
        for (met, corner) in self.corners[kind as usize].iter_mut().zip(CORNERS) {
            *met |= value == corner;
        }
    }

    fn found(&mut self, kind: Kind, last: bool) {
        self.last_place[kind as usize] |= last;
    }

    /// Counts what was met, each once for the run.
    fn note(&self, tally: &mut Tally) {
        if self.owner_leaves {
            tally.note(OWNER_LEAVES);
        }
        for kind in Kind::ALL {
            if self.last_place[kind as usize] {
                tally.note(&last_place(kind));
            }
            for (met, value) in self.corners[kind as usize].iter().zip(CORNERS) {
                if *met {
                    tally.note(&corner(kind, value));
                }
            }
        }
    }
}
