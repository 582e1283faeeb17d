//! The names of the steps that a schedule runs.

use order_engine::{REPORT_ROOM, StepName, run};

/// The step that each entry of an accepted schedule runs.
pub fn names(table: &[u8], schedule: &[u8]) -> Vec<StepName> {
    let entries = schedule.iter().enumerate();
    let steps = entries.map_while(|(index, &actor)| next(table, &schedule[..index], actor));
    steps.collect()
}

/// The step that `actor` would run after `schedule`, whether it is ready or not: where it stands then.
/// `None` where the schedule is refused, or there is no such actor.
pub fn next(table: &[u8], schedule: &[u8], actor: u8) -> Option<StepName> {
    let mut buffer = [0; REPORT_ROOM];
    let report = run(table, schedule, &mut buffer).ok()?;
    let position = report.actors().nth(actor.into())?.position;
    Some(StepName::new(actor, position))
}

#[cfg(test)]
mod tests {
    use super::names;
    use tables::TABLE_A;

    #[test]
    fn names_of_table_a() {
        let shown = |schedule: &[u8]| {
            let names = names(&TABLE_A, schedule).into_iter();
            names.map(|name| name.to_string()).collect::<Vec<_>>()
        };
        assert_eq!(shown(&[1, 0, 0, 1]), ["1.0", "0.0", "0.1", "1.1"]);
        assert_eq!(shown(&[]), [""; 0]);
    }
}
