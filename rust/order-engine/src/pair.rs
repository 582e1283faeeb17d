//! Whether two steps may trade places.

use crate::fields::Fields;
use crate::refusal::Refusal;
use crate::step::StepName;

unsafe extern "C" {
    fn order_pair(
        table: *const u8,
        table_length: usize,
        first_actor: u8,
        first_action: u8,
        second_actor: u8,
        second_action: u8,
    ) -> Fields<1>;
}

/// What [`pair`] answers.
#[derive(Clone, Copy, PartialEq, Eq, Hash, Debug)]
pub enum PairVerdict {
    /// The steps may change places where they are neighbours.
    Independent,
    /// Their order matters.
    Dependent,
}

impl PairVerdict {
    /// Whether the order of the two steps matters.
    pub fn is_dependent(&self) -> bool {
        *self == Self::Dependent
    }
}

/// Whether two steps are dependent, judged from the table alone.
///
/// Refusals: 1 to 9, then 17.
pub fn pair(table: &[u8], first: StepName, second: StepName) -> Result<PairVerdict, Refusal> {
    let [verdict] = fields(table, first, second).accepted()?;
    match verdict {
        0 => Ok(PairVerdict::Independent),
        1 => Ok(PairVerdict::Dependent),
        other => unreachable!("order_pair answered with verdict {other}"),
    }
}

/// The answer as C has it: 0 independent, 1 dependent.
pub fn fields(table: &[u8], first: StepName, second: StepName) -> Fields<1> {
    // SAFETY: pointer and length are those of a slice that is borrowed throughout the call, which
    // only reads it.
    unsafe {
        order_pair(
            table.as_ptr(),
            table.len(),
            first.actor,
            first.action,
            second.actor,
            second.action,
        )
    }
}
