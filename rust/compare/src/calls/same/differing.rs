//! How soon the verdict ends, measured: stepping both schedules alone, and the verdict on schedules that differ
//! early or late.

use super::{by_engine, by_reference};
use crate::workload::{Load, Measure, Work};
use order_engine::same;
use reference::quick;

/// Measures the stepping of both schedules, by the ready answer about each whole: what the verdict cannot do
/// without.
pub fn two_runs(measure: &mut impl Measure, load: &Load) {
    measure.measure(
        "two runs",
        load,
        |work| {
            let ready = [&work.first, &work.second].map(|schedule| {
                let answer = order_engine::ready(&work.table, schedule);
                answer.expect("accepted").count as usize
            });
            ready.iter().sum()
        },
        |work| {
            let ready = [&work.first, &work.second].map(|schedule| {
                let answer = reference::ready(&work.table, schedule);
                answer.expect("accepted").count as usize
            });
            ready.iter().sum()
        },
    );
}

/// Measures the verdict where the first pair in opposite orders comes early.
pub fn early(measure: &mut impl Measure, load: &Load) {
    differing(measure, load, "same, differing early", |work| {
        work.early.as_deref()
    });
}

/// Measures the verdict where it comes late.
pub fn late(measure: &mut impl Measure, load: &Load) {
    differing(measure, load, "same, differing late", |work| {
        work.late.as_deref()
    });
}

/// Measures the verdict on the first schedule against another, on a load whose every table has one.
fn differing(
    measure: &mut impl Measure,
    load: &Load,
    name: &'static str,
    other: fn(&Work) -> Option<&[u8]>,
) {
    if load.works.iter().any(|work| other(work).is_none()) {
        return;
    }
    measure.measure(
        name,
        load,
        |work| {
            let other = other(work).unwrap_or_default();
            by_engine(same::fields(&work.table, &work.first, other))
        },
        |work| {
            let other = other(work).unwrap_or_default();
            by_reference(quick::same(&work.table, &work.first, other))
        },
    );
}
