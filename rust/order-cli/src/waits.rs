//! What a step that is not ready waits for; an Add waits for nothing, see [`crate::over`].

use crate::posts::stage;
use crate::table::Table;
use crate::words::{listed, step};
use order_engine::report::{Queued, Stage};
use order_engine::{Report, StepName};
use std::collections::HashSet;
use tables::Kind;
use tables::action::{self, list};

/// What `name` waits for in the state of this report, where it is not ready.
pub fn reason(table: &Table, report: &Report, name: StepName) -> String {
    let Some(action) = table.layout.action(name.actor, name.action) else {
        return String::new();
    };
    let mut reasons = match action::kind(action) {
        Some(Kind::WaitAny) => {
            let steps = listed(name.actor, action);
            steps.map(|step| unmet(table, report, step)).collect()
        }
        Some(Kind::MutexWait) => {
            let mutexes = list(action).iter();
            mutexes
                .map(|&mutex| unowned(report, name.actor, mutex))
                .collect()
        }
        _ => Vec::new(),
    };
    let mut said = HashSet::new();
    reasons.retain(|reason| said.insert(reason.clone()));
    reasons.join(", ")
}

/// A listed communication that is not done.
fn unmet(table: &Table, report: &Report, name: StepName) -> String {
    let words = step(&table.layout, name);
    match stage(report, name) {
        Stage::Unposted => format!("{words} has not run"),
        Stage::Pending { .. } => format!("{words} has met no {}", partner(table, name)),
        Stage::Done { .. } => format!("{words} is done"),
    }
}

/// What a communication meets.
fn partner(table: &Table, name: StepName) -> &'static str {
    let met = match table.kind(name) {
        Some(Kind::Send) => Kind::Receive,
        _ => Kind::Send,
    };
    met.name()
}

/// A listed mutex that the actor does not own.
fn unowned(report: &Report, actor: u8, number: u8) -> String {
    let mutex = report.mutexes().nth(number.into());
    let mutex = mutex.filter(|mutex| mutex.queue().any(|queued| queued.actor == actor));
    match mutex.and_then(|mutex| mutex.owner()) {
        Some(Queued { actor, depth, .. }) => {
            format!("actor {actor} owns mutex {number} with depth {depth}")
        }
        None => format!("actor {actor} is not queued for mutex {number}"),
    }
}
