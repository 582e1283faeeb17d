//! A table taken apart: its counts and each actor's actions.

use crate::action::Action;

/// The edition that a table's first byte gives.
pub const EDITION: u8 = 1;
/// The most actors, mailboxes or mutexes.
pub const MOST: u8 = 8;
/// The cells that an actor has.
pub const CELLS: u8 = 8;
/// The most actions of an actor.
pub const MOST_ACTIONS: usize = 32;
/// The bytes of a header.
pub const HEADER: usize = 4;
/// The bytes of a directory's entry.
pub const ENTRY: usize = 4;
/// The bytes of an action.
pub const ACTION: usize = 8;
/// The longest table.
pub const LONGEST: usize = HEADER + (ENTRY + ACTION * MOST_ACTIONS) * MOST as usize;

/// What a table holds. Counts and actions may be anything; header and directory follow from them.
#[derive(Clone, Debug, Default, PartialEq, Eq)]
pub struct Layout {
    /// The number of mailboxes.
    pub mailboxes: u8,
    /// The number of mutexes.
    pub mutexes: u8,
    /// Each actor's actions.
    pub scripts: Vec<Vec<Action>>,
}

impl Layout {
    /// A table of these actors' actions.
    pub fn new(mailboxes: u8, mutexes: u8, scripts: &[&[Action]]) -> Self {
        Self {
            mailboxes,
            mutexes,
            scripts: scripts.iter().map(|script| script.to_vec()).collect(),
        }
    }

    /// Takes a table apart, if it has the edition's number, and its directory and its end are right.
    pub fn of(table: &[u8]) -> Option<Self> {
        let &[EDITION, actors, mailboxes, mutexes, ..] = table else {
            return None;
        };
        let mut end = first_offset(usize::from(actors));
        let (entries, _) = table.get(HEADER..end)?.as_chunks::<ENTRY>();
        let mut scripts = Vec::new();
        for &[offset_low, offset_high, count_low, count_high] in entries {
            let count = usize::from(u16::from_le_bytes([count_low, count_high]));
            if usize::from(u16::from_le_bytes([offset_low, offset_high])) != end {
                return None;
            }
            let (actions, _) = table.get(end..end + ACTION * count)?.as_chunks::<ACTION>();
            scripts.push(actions.to_vec());
            end += ACTION * count;
        }
        (end == table.len()).then_some(Self {
            mailboxes,
            mutexes,
            scripts,
        })
    }

    /// The table. Counts and offsets too large for their fields lose their upper bits.
    pub fn bytes(&self) -> Vec<u8> {
        let actors = self.scripts.len();
        let mut bytes = vec![EDITION, actors as u8, self.mailboxes, self.mutexes];
        let mut end = first_offset(actors);
        for script in &self.scripts {
            bytes.extend((end as u16).to_le_bytes());
            bytes.extend((script.len() as u16).to_le_bytes());
            end += ACTION * script.len();
        }
        for script in &self.scripts {
            bytes.extend(script.as_flattened());
        }
        bytes
    }

    /// The action with this number, if there is one.
    pub fn action(&self, actor: u8, action: u8) -> Option<&Action> {
        let script = self.scripts.get(usize::from(actor))?;
        script.get(usize::from(action))
    }

    /// The actor and number of the action whose eight bytes begin at `offset`, if one does.
    pub fn at(&self, offset: usize) -> Option<(u8, u8)> {
        let mut start = first_offset(self.scripts.len());
        for (actor, script) in self.scripts.iter().enumerate() {
            let end = start + ACTION * script.len();
            if (start..end).contains(&offset) && (offset - start).is_multiple_of(ACTION) {
                return Some((actor as u8, ((offset - start) / ACTION) as u8));
            }
            start = end;
        }
        None
    }
}

/// Where the first actor's actions begin.
pub const fn first_offset(actors: usize) -> usize {
    HEADER + ENTRY * actors
}
