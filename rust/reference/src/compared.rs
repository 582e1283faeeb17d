//! How many pairs of entries the same verdict compares: counted pair by pair, as document 02 says it.

use crate::name::Name;
use crate::pair::dependent;
use crate::table::Table;

/// The pairs that were compared.
#[derive(Clone, Copy, PartialEq, Eq, Debug, Default)]
pub struct Compared {
    /// How many they are.
    pub pairs: u32,
    /// Whether the last of them is dependent and runs in the opposite order in the second schedule.
    pub ended: bool,
}

/// Compares the pairs i < j of the first schedule's steps by rising j, then rising i, up to the first
/// dependent one that the second runs in the opposite order. None where the lengths or the steps differ.
pub fn compared(table: &Table, first: &[Name], second: &[Name]) -> Compared {
    let mut compared = Compared::default();
    let mut places = [None; Name::COUNT];
    for (place, name) in second.iter().enumerate() {
        places[name.index()] = Some(place);
    }
    let place = |name: Name| places[name.index()];
    let same_steps = first.iter().all(|&name| place(name).is_some());
    if first.len() != second.len() || !same_steps {
        return compared;
    }
    for j in 0..first.len() {
        for i in 0..j {
            compared.pairs += 1;
            let opposite = place(first[i]) > place(first[j]);
            if opposite && dependent(table, first[i], first[j]) {
                compared.ended = true;
                return compared;
            }
        }
    }
    compared
}
