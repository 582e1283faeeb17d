//! Refusals of an action: each at every kind that can give it, and at every byte that has no use.

use crate::harness::asked::Asked;
use crate::harness::demands::Demands;
use crate::harness::tally::Tally;
use reference::Reason;
use tables::action::{self, list};
use tables::{Action, Field, Kind, Layout, Rest};

/// Numbers that are no kind: the first and the last.
const NO_KINDS: [u8; 2] = [Kind::COUNT as u8, u8::MAX];

/// What must have been met, and how often.
pub fn demands(demands: Demands, least: u64) -> Demands {
    let unlisted = Kind::ALL.into_iter().filter(|&kind| !is_post(kind));
    let unused = Kind::ALL.into_iter().flat_map(|kind| {
        let bytes = unused_bytes(kind).iter();
        bytes.map(move |&byte| unused(kind, byte))
    });
    demands
        .notes(&NO_KINDS.map(no_kind), least)
        .notes(&Kind::ALL.map(range), least)
        .notes(&unlisted.map(listed).collect::<Vec<_>>(), least)
        .notes(&unused.collect::<Vec<_>>(), least)
}

/// Notes what an action was refused for.
pub fn note(tally: &mut Tally, asked: &Asked) {
    let Some(reason) = Reason::of(asked.reference.refusal).filter(|&one| one >= Reason::Kind) else {
        return;
    };
    let layout = Layout::of(&asked.input.read[0]).expect("directory and end are right");
    let place = layout.at(asked.reference.position as usize);
    let (actor, number) = place.expect("an action is refused at its offset");
    let script = &layout.scripts[usize::from(actor)];
    let action = &script[usize::from(number)];
    match (reason, action::kind(action)) {
        (Reason::Kind, _) if NO_KINDS.contains(&action[0]) => tally.note(&no_kind(action[0])),
        (Reason::Range, Some(kind)) => tally.note(&range(kind)),
        (Reason::Listed, _) => {
            if let Some(kind) = wrongly_listed(&script[..usize::from(number)], action) {
                tally.note(&listed(kind));
            }
        }
        (Reason::Unused, Some(kind)) => {
            if let [byte] = wrongly_used(kind, action)[..] {
                tally.note(&unused(kind, byte));
            }
        }
        _ => {}
    }
}

/// The kind of the action that is neither a Send nor a Receive, where a list names one such and otherwise
/// only what it may.
fn wrongly_listed(lower: &[Action], action: &Action) -> Option<Kind> {
    let listed = list(action).iter();
    let kinds = listed.map(|&number| lower.get(usize::from(number)).and_then(action::kind));
    let mut kinds = kinds.collect::<Option<Vec<Kind>>>()?;
    kinds.retain(|&kind| !is_post(kind));
    match kinds[..] {
        [kind] => Some(kind),
        _ => None,
    }
}

fn is_post(kind: Kind) -> bool {
    kind.field() == Field::Mailbox
}

/// The bytes that have no use in some action of this kind.
fn unused_bytes(kind: Kind) -> &'static [usize] {
    match kind.rest() {
        Rest::Nothing => &[2, 3, 4, 5, 6, 7],
        Rest::Value => &[2, 3],
        Rest::Cell => &[3, 4, 5, 6, 7],
        Rest::Communications | Rest::Mutexes => &[2, 5, 6, 7],
    }
}

/// The bytes without a use in this action that are not 0.
fn wrongly_used(kind: Kind, action: &Action) -> Vec<usize> {
    let used = match kind.rest() {
        Rest::Communications | Rest::Mutexes => 4..4 + list(action).len(),
        Rest::Nothing | Rest::Value | Rest::Cell => 0..0,
    };
    let unused = unused_bytes(kind).iter().copied();
    unused
        .filter(|byte| !used.contains(byte) && action[*byte] != 0)
        .collect()
}

fn no_kind(code: u8) -> String {
    format!("refused 6: kind {code}")
}

fn range(kind: Kind) -> String {
    format!("refused 7: {}", kind.name())
}

fn listed(kind: Kind) -> String {
    format!("refused 8: a list names a {}", kind.name())
}

fn unused(kind: Kind, byte: usize) -> String {
    format!("refused 9: {}, byte {byte}", kind.name())
}
