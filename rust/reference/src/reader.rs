//! The table reader: refusals 1 to 9 in document 01's order.

use crate::refusal::{Reason, Refusal};
use crate::table::Table;
use tables::Kind;

/// The most actors, mailboxes or mutexes, and the number of an actor's cells.
const MOST: u8 = 8;
/// The most actions of an actor.
const MOST_ACTIONS: usize = 32;
/// The longest list.
const LONGEST_LIST: u8 = 4;
/// Bytes of the header, of a directory entry and of an action.
const HEADER: usize = 4;
const ENTRY: usize = 4;
const ACTION: usize = 8;

/// Reads a table: the view of it, or the first refusal.
pub fn check(table: &[u8]) -> Result<Table<'_>, Refusal> {
    validate(table)?;
    Ok(Table::of_accepted(table))
}

/// Whether a table is accepted, and otherwise the first refusal. Decodes and allocates nothing.
pub fn validate(table: &[u8]) -> Result<(), Refusal> {
    let header = header(table)?;
    let directory = directory(table, header.actors)?;
    actions(table, directory, &Limits::of(&header))
}

/// The header's counts, in range.
struct Header {
    actors: usize,
    mailboxes: u8,
    mutexes: u8,
}

/// Refusals 1 to 3.
fn header(table: &[u8]) -> Result<Header, Refusal> {
    let &[edition, actors, mailboxes, mutexes, ..] = table else {
        return Err(Refusal::new(Reason::ShortFile, 0));
    };
    if edition != 1 {
        return Err(Refusal::new(Reason::Edition, 0));
    }
    if actors == 0 || actors > MOST || mailboxes > MOST || mutexes > MOST {
        return Err(Refusal::new(Reason::Count, 0));
    }
    Ok(Header {
        actors: usize::from(actors),
        mailboxes,
        mutexes,
    })
}

/// Refusals 4 and 5, and the directory's entries.
fn directory(table: &[u8], actors: usize) -> Result<&[[u8; ENTRY]], Refusal> {
    let mut end = HEADER + ENTRY * actors;
    let Some(bytes) = table.get(HEADER..end) else {
        return Err(Refusal::new(Reason::Directory, 0));
    };
    let (entries, _) = bytes.as_chunks::<ENTRY>();
    for &[offset_low, offset_high, count_low, count_high] in entries {
        let offset = u16::from_le_bytes([offset_low, offset_high]);
        let count = usize::from(u16::from_le_bytes([count_low, count_high]));
        if usize::from(offset) != end || count > MOST_ACTIONS {
            return Err(Refusal::new(Reason::Directory, 0));
        }
        end += ACTION * count;
    }
    if table.len() != end {
        return Err(Refusal::new(Reason::FileEnd, 0));
    }
    Ok(entries)
}

/// Refusals 6 to 9, action by action in file order.
fn actions(table: &[u8], directory: &[[u8; ENTRY]], limits: &Limits) -> Result<(), Refusal> {
    let mut offset = HEADER + ENTRY * directory.len();
    for entry in directory {
        let end = offset + ACTION * usize::from(entry[2]);
        let (own, _) = table[offset..end].as_chunks::<ACTION>();
        // Bit i: action i of this actor lies below and is a Send or a Receive.
        let mut posts: u32 = 0;
        let mut bit: u32 = 1;
        for &action in own {
            if let Some(reason) = limits.broken_by(action, posts) {
                let at = offset + ACTION * bit.trailing_zeros() as usize;
                return Err(Refusal::new(reason, at as u32));
            }
            if action[0] == Kind::Send.code() || action[0] == Kind::Receive.code() {
                posts |= bit;
            }
            bit <<= 1;
        }
        offset = end;
    }
    Ok(())
}

/// What the header leaves to an action.
struct Limits {
    /// By kind: what p lies under.
    p: [u8; ROWS],
    /// Bit i: mutex i exists.
    mutexes: u32,
}

impl Limits {
    fn of(header: &Header) -> Self {
        let mut p = [MOST; ROWS];
        for kind in [Kind::Send, Kind::Receive] {
            p[kind as usize] = header.mailboxes;
        }
        for kind in [Kind::Lock, Kind::Unlock] {
            p[kind as usize] = header.mutexes;
        }
        Self {
            p,
            mutexes: (1 << header.mutexes) - 1,
        }
    }

    /// The first of reasons 6 to 9 that an action gives, `posts` being the numbers it may list.
    #[inline(always)]
    fn broken_by(&self, action: [u8; ACTION], posts: u32) -> Option<Reason> {
        let [code, p, _, z, ..] = action;
        if usize::from(code) >= Kind::COUNT {
            return Some(Reason::Kind);
        }
        let row = usize::from(code);
        let word = u64::from_le_bytes(action);
        if p >= self.p[row] || word & FORMS[row].no_cell != 0 {
            return Some(Reason::Range);
        }
        let mut unused = word & FORMS[row].unused;
        if FORMS[row].list {
            if z == 0 || z > LONGEST_LIST {
                return Some(Reason::Range);
            }
            let (allowed, otherwise) = if code <= Kind::WaitAny.code() {
                (posts, Reason::Listed)
            } else {
                (self.mutexes, Reason::Range)
            };
            let mut list = word >> 32;
            for _ in 0..z {
                let number = list & 0xff;
                if number > 31 || allowed >> number & 1 == 0 {
                    return Some(otherwise);
                }
                list >>= 8;
            }
            // What is left stands after the z-th number.
            unused |= list;
        }
        (unused != 0).then_some(Reason::Unused)
    }
}

/// Which bytes a kind uses, as masks over an action's bytes as one number.
#[derive(Clone, Copy)]
struct Form {
    /// The bits of q that no cell number has, where q is a cell.
    no_cell: u64,
    /// The bytes that are always without a use.
    unused: u64,
    /// Whether z and a list follow.
    list: bool,
}

const Q: u64 = 0x0000_0000_00ff_0000;
const Z: u64 = 0x0000_0000_ff00_0000;
const B4_TO_B7: u64 = 0xffff_ffff_0000_0000;
const Q_OVER_7: u64 = 0x0000_0000_00f8_0000;

/// A power of two that no kind passes: a row's index needs no test.
const ROWS: usize = Kind::COUNT.next_power_of_two();

/// By kind: its form.
static FORMS: [Form; ROWS] = {
    let mut forms = [form(Kind::Set); ROWS];
    let mut row = 0;
    while row < Kind::COUNT {
        forms[row] = form(Kind::ALL[row]);
        row += 1;
    }
    forms
};

const fn form(kind: Kind) -> Form {
    let (no_cell, unused, list) = match kind {
        Kind::Set => (0, Q | Z, false),
        Kind::Add | Kind::Lesser | Kind::Send | Kind::Receive => (Q_OVER_7, Z | B4_TO_B7, false),
        Kind::TestAny | Kind::WaitAny | Kind::MutexTest | Kind::MutexWait => (0, Q, true),
        Kind::Lock | Kind::Unlock | Kind::Note => (0, Q | Z | B4_TO_B7, false),
    };
    Form {
        no_cell,
        unused,
        list,
    }
}
