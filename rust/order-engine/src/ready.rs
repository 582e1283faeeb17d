//! Who is ready where a schedule leads.

use crate::fields::Fields;
use crate::refusal::Refusal;

unsafe extern "C" {
    fn order_ready(
        table: *const u8,
        table_length: usize,
        schedule: *const u8,
        schedule_length: usize,
    ) -> Fields<3>;
}

/// How a state stands.
#[derive(Clone, Copy, PartialEq, Eq, Hash, Debug)]
pub enum Ending {
    /// Every actor is finished.
    Finished,
    /// Not every actor is finished, and none is ready: each that is left waits, or has an Add next that
    /// would run over.
    Stuck,
    /// Some actor is ready.
    Going,
}

/// Who is ready.
#[derive(Clone, Copy, PartialEq, Eq, Hash, Debug)]
pub struct Ready {
    /// Bit i, from the lowest: actor i is ready.
    pub mask: u32,
    /// How many actors are ready.
    pub count: u32,
    /// How the state stands.
    pub ending: Ending,
}

impl Ready {
    /// The actors that are ready, lowest first.
    pub fn actors(&self) -> impl Iterator<Item = u8> + use<> {
        let mask = self.mask;
        (0..8).filter(move |actor| mask >> actor & 1 == 1)
    }
}

/// Steps `schedule` from a fresh site and tells who is ready in the state it leads to.
///
/// Refusals: 1 to 9, then 11 to 13 and 21.
pub fn ready(table: &[u8], schedule: &[u8]) -> Result<Ready, Refusal> {
    let [mask, count, ending] = fields(table, schedule).accepted()?;
    let ending = match ending {
        0 => Ending::Finished,
        1 => Ending::Stuck,
        2 => Ending::Going,
        other => unreachable!("order_ready answered with ending {other}"),
    };
    Ok(Ready {
        mask,
        count,
        ending,
    })
}

/// The answer as C has it: the mask, how many are ready, and the ending (0 finished, 1 stuck, 2
/// going).
pub fn fields(table: &[u8], schedule: &[u8]) -> Fields<3> {
    // SAFETY: pointers and lengths are those of slices that are borrowed throughout the call, which
    // only reads them.
    unsafe {
        order_ready(
            table.as_ptr(),
            table.len(),
            schedule.as_ptr(),
            schedule.len(),
        )
    }
}
