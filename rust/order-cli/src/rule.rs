//! Why two steps are dependent: the specification's five cases, in words. Whether they are is the
//! engine's to say.

use crate::words::{listed, step};
use order_engine::StepName;
use tables::action::{self, list};
use tables::{Kind, Layout};

/// What a step does that another actor's step may be dependent on.
#[derive(Clone, PartialEq, Eq, Debug)]
enum Part {
    /// Nothing.
    Nothing,
    /// Posts a Send or a Receive, its kind, to a mailbox.
    Posts(Kind, u8),
    /// Looks at communications of its actor.
    Looks(Vec<StepName>),
    /// Locks a mutex.
    Locks(u8),
    /// Unlocks a mutex.
    Unlocks(u8),
    /// Looks at mutexes.
    Asks(Vec<u8>),
    /// Writes into the journal.
    Notes,
}

/// Which case makes two steps dependent, if one does.
pub fn rule(layout: &Layout, one: StepName, other: StepName) -> Option<String> {
    if one == other {
        return Some("a step and itself are always dependent".to_owned());
    }
    if one.actor == other.actor {
        return Some("two steps of one actor are always dependent".to_owned());
    }
    let watches = || watches(layout, one, other).or_else(|| watches(layout, other, one));
    competes(layout, one, other).or_else(watches)
}

/// Cases 1, 3 and 5: both do the same to one thing.
fn competes(layout: &Layout, one: StepName, other: StepName) -> Option<String> {
    let does = part(layout, one);
    if does != part(layout, other) {
        return None;
    }
    match does {
        Part::Posts(kind, mailbox) => {
            Some(format!("case 1: both {} on mailbox {mailbox}", kind.name()))
        }
        Part::Locks(mutex) => Some(format!("case 3: both Lock mutex {mutex}")),
        Part::Notes => Some("case 5: both Note".to_owned()),
        Part::Nothing | Part::Looks(_) | Part::Unlocks(_) | Part::Asks(_) => None,
    }
}

/// Cases 2 and 4: `one` lists what `other` may meet or hand on.
fn watches(layout: &Layout, one: StepName, other: StepName) -> Option<String> {
    match (part(layout, one), part(layout, other)) {
        (Part::Looks(mut steps), Part::Posts(kind, mailbox)) => {
            steps.retain(|&name| meets(&part(layout, name), kind, mailbox));
            let met = step(layout, *steps.first()?);
            let kind = kind.name();
            Some(format!(
                "case 2: {one} lists {met}, and {other} is a {kind} there"
            ))
        }
        (Part::Asks(mutexes), Part::Unlocks(mutex)) if mutexes.contains(&mutex) => Some(format!(
            "case 4: {one} lists mutex {mutex}, and {other} is an Unlock of it"
        )),
        _ => None,
    }
}

/// Whether a listed communication is the other side of a `kind` on `mailbox`.
fn meets(listed: &Part, kind: Kind, mailbox: u8) -> bool {
    matches!(listed, &Part::Posts(side, there) if side != kind && there == mailbox)
}

fn part(layout: &Layout, name: StepName) -> Part {
    let Some(action) = layout.action(name.actor, name.action) else {
        return Part::Nothing;
    };
    let p = action[1];
    match action::kind(action) {
        Some(kind @ (Kind::Send | Kind::Receive)) => Part::Posts(kind, p),
        Some(Kind::TestAny | Kind::WaitAny) => Part::Looks(listed(name.actor, action).collect()),
        Some(Kind::Lock) => Part::Locks(p),
        Some(Kind::Unlock) => Part::Unlocks(p),
        Some(Kind::MutexTest | Kind::MutexWait) => Part::Asks(list(action).to_vec()),
        Some(Kind::Note) => Part::Notes,
        _ => Part::Nothing,
    }
}
