//! What became of Sends and Receives.

use crate::table::Table;
use order_engine::report::Stage;
use order_engine::{Report, StepName};
use tables::Kind;

/// What became of a communication.
pub fn stage(report: &Report, step: StepName) -> Stage {
    let mut all = report.communications();
    let found = all.find(|communication| communication.step == step);
    found.map_or(Stage::Unposted, |communication| communication.stage)
}

/// A step that waits in a mailbox, a Send with its value.
pub fn waiting(table: &Table, report: &Report, name: StepName) -> String {
    let posted = posted(table, name);
    match (table.kind(name), stage(report, name)) {
        (Some(Kind::Send), Stage::Pending { value }) => format!("{posted} with {value}"),
        _ => posted,
    }
}

/// A line for each Receive that has met a Send: the two, and the value.
pub fn met(table: &Table, report: &Report) -> String {
    let all = report.communications();
    let done = all.filter_map(|communication| match communication.stage {
        Stage::Done { partner, value } => Some((communication.step, partner, value)),
        Stage::Unposted | Stage::Pending { .. } => None,
    });
    let receives = done.filter(|&(step, ..)| table.kind(step) == Some(Kind::Receive));
    let lines = receives.map(|(step, partner, value)| {
        let [receive, send] = [step, partner].map(|name| posted(table, name));
        format!("{receive} met {send}: {value}\n")
    });
    lines.collect()
}

/// A step by its name and kind: `0.1 Send`.
fn posted(table: &Table, name: StepName) -> String {
    match table.kind(name) {
        Some(kind) => format!("{name} {}", kind.name()),
        None => name.to_string(),
    }
}
