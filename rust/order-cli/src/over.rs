//! Why an Add that is not ready runs over.

use order_engine::report::Actor;
use tables::Action;

/// What the Add would make of its actor's cells, and the most that a cell holds.
pub fn reason(actor: &Actor, add: &Action) -> String {
    let [_, p, q, ..] = *add;
    let [into, added] = [p, q].map(|cell| actor.cells[usize::from(cell)]);
    let sum = u64::from(into) + u64::from(added);
    let cells = match p == q {
        true => format!("{into} in cell {p}, doubled, makes"),
        false => format!("{into} in cell {p} and {added} in cell {q} make"),
    };
    format!("{cells} {sum}, and a cell holds at most {}", u32::MAX)
}

#[cfg(test)]
mod tests {
    use super::reason;
    use order_engine::{REPORT_ROOM, run};
    use tables::action::{add, set};
    use tables::{Action, Layout};

    /// The reason for an Add after two Sets of cells 0 and 1.
    fn said(values: [u32; 2], add: Action) -> String {
        let script = [set(0, values[0]), set(1, values[1]), add];
        let table = Layout::new(0, 0, &[&script]).bytes();
        let mut buffer = [0; REPORT_ROOM];
        let report = run(&table, &[0, 0], &mut buffer).unwrap();
        reason(&report.actors().next().unwrap(), &add)
    }

    #[test]
    fn both_cells_with_what_they_hold() {
        assert_eq!(
            said([4_294_967_290, 6], add(0, 1)),
            "4294967290 in cell 0 and 6 in cell 1 make 4294967296, and a cell holds at most 4294967295"
        );
        assert_eq!(
            said([1, u32::MAX], add(1, 0)),
            "4294967295 in cell 1 and 1 in cell 0 make 4294967296, and a cell holds at most 4294967295"
        );
    }

    #[test]
    fn one_cell_with_itself() {
        assert_eq!(
            said([0, u32::MAX], add(1, 1)),
            "4294967295 in cell 1, doubled, makes 8589934590, and a cell holds at most 4294967295"
        );
    }
}
