//! A mutex's section of a report.

/// Bytes of an entry: an actor and its depth.
const ENTRY: usize = 2;

/// A mutex: who is queued for it.
///
/// ```
/// // One actor that locks mutex 0 twice.
/// let lock = [7, 0, 0, 0, 0, 0, 0, 0];
/// let table = [&[1, 1, 0, 1, 8, 0, 2, 0][..], &lock, &lock].concat();
/// let mut buffer = [0; order_engine::REPORT_ROOM];
/// let report = order_engine::run(&table, &[0, 0], &mut buffer).unwrap();
/// let owner = report.mutexes().next().unwrap().owner().unwrap();
/// assert_eq!((owner.actor, owner.depth), (0, 2));
/// ```
#[derive(Clone, Copy, PartialEq, Eq, Hash, Debug)]
pub struct Mutex<'a> {
    number: u8,
    entries: &'a [[u8; ENTRY]],
}

/// An actor that is queued for a mutex.
#[derive(Clone, Copy, PartialEq, Eq, Hash, Debug)]
#[non_exhaustive]
pub struct Queued {
    /// The actor.
    pub actor: u8,
    /// Its depth: how many Unlocks it takes to leave the queue, 1 to 32.
    pub depth: u8,
}

impl<'a> Mutex<'a> {
    /// Takes a mutex off the front of `rest`.
    pub(super) fn off(number: u8, rest: &mut &'a [u8]) -> Self {
        let (entries, after) = rest[1..].split_at(ENTRY * usize::from(rest[0]));
        *rest = after;
        Self {
            number,
            entries: entries.as_chunks().0,
        }
    }

    /// The mutex's number.
    pub fn number(&self) -> u8 {
        self.number
    }

    /// The actors that are queued for it, the owner first.
    pub fn queue(&self) -> impl ExactSizeIterator<Item = Queued> + use<'a> {
        let entries = self.entries.iter();
        entries.map(|&[actor, depth]| Queued { actor, depth })
    }

    /// The actor that owns it, if one does.
    pub fn owner(&self) -> Option<Queued> {
        self.queue().next()
    }
}
