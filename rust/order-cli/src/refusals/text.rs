//! Where a text says what the engine refuses in the table built from it.

use super::header::{Fault, fault, wrong_counts};
use order_engine::{Reason, Refusal};
use tables::text::{Built, Place};

/// The place in the text that a refusal of its table points at.
pub fn place(refusal: Refusal, built: &Built) -> Option<Place> {
    match refusal.reason() {
        Reason::Count => {
            let (count, _) = wrong_counts(&built.layout.bytes()).next()?;
            built.counts.get(count).copied()
        }
        Reason::Directory => match fault(&built.layout.bytes())? {
            Fault::Cut(_) => None,
            Fault::Offset { actor, .. } | Fault::Many { actor, .. } => {
                built.actors.get(actor).copied()
            }
        },
        Reason::Kind | Reason::Range | Reason::Listed | Reason::Unused => {
            let (actor, action) = built.layout.at(refusal.position() as usize)?;
            let actions = built.actions.get(usize::from(actor))?;
            actions.get(usize::from(action)).copied()
        }
        _ => None,
    }
}
