//! Refusal 17: which step is not in the table, and what the table has.

use crate::words::count;
use order_engine::StepName;
use tables::Layout;

/// A line for each step that is not in the table.
pub(super) fn words(layout: &Layout, steps: &[StepName]) -> String {
    let mut steps = steps.to_vec();
    steps.dedup();
    let absent = steps.into_iter().filter_map(|name| {
        let there = match layout.scripts.get(usize::from(name.actor)) {
            None => {
                let actors = count(layout.scripts.len(), "actor", "actors");
                format!("the table has {actors}")
            }
            Some(script) if usize::from(name.action) >= script.len() => {
                let actions = count(script.len(), "action", "actions");
                format!("actor {} has {actions}", name.actor)
            }
            Some(_) => return None,
        };
        Some(format!("there is no {name}: {there}, numbered from 0\n"))
    });
    absent.collect()
}
