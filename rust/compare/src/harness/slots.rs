//! What a call is given, in slots: slices to read, numbers, and a buffer to write. A call says which
//! slots it takes and what each is; the others stay empty.

/// The most slices that a call reads.
pub const READ: usize = 3;
/// The most numbers that a call takes.
pub const NUMBERS: usize = 4;

/// What a slice to read is.
#[derive(Clone, Copy, PartialEq, Eq, Debug)]
pub enum Role {
    /// A table.
    Table,
    /// The only schedule, or the first of two.
    First,
    /// The second schedule.
    Second,
}

/// A slice to read: its label and what it is.
#[derive(Clone, Copy, Debug)]
pub struct Read(pub &'static str, pub Role);

/// A number: its label and what it is.
#[derive(Clone, Copy, Debug)]
pub enum Number {
    /// An actor's number.
    Actor(&'static str),
    /// The number of an action of the actor whose number comes before it.
    Action(&'static str),
    /// Any number of 32 bits.
    Any(&'static str),
}

impl Number {
    /// Its label.
    pub fn label(&self) -> &'static str {
        let (Self::Actor(label) | Self::Action(label) | Self::Any(label)) = self;
        label
    }
}

/// A buffer to write, of which the answer's first value is how much was written.
#[derive(Clone, Copy, PartialEq, Eq, Debug)]
pub enum Buffer {
    /// None.
    None,
    /// Bytes.
    Bytes(&'static str),
    /// Entries of 16 bits.
    Entries(&'static str),
}

/// The slots that a call takes, in the order of its arguments.
#[derive(Clone, Copy, Debug)]
pub struct Slots {
    /// Slices to read.
    pub read: &'static [Read],
    /// Numbers.
    pub numbers: &'static [Number],
    /// The buffer to write.
    pub buffer: Buffer,
}

/// The table, first in every call that takes one.
pub const TABLE: Read = Read("table", Role::Table);
/// The only schedule.
pub const SCHEDULE: Read = Read("schedule", Role::First);
/// The first of two schedules.
pub const FIRST: Read = Read("first schedule", Role::First);
/// The second of two.
pub const SECOND: Read = Read("second schedule", Role::Second);
/// The first of two recordings: schedules that need not end together.
pub const FIRST_RECORDING: Read = Read("first recording", Role::First);
/// The second of two.
pub const SECOND_RECORDING: Read = Read("second recording", Role::Second);

impl Slots {
    /// The index of the slice that is this, if there is one.
    pub fn index(&self, role: Role) -> Option<usize> {
        self.read.iter().position(|read| read.1 == role)
    }
}

/// What a call is given.
#[derive(Clone, Debug, Default, PartialEq, Eq)]
pub struct Input {
    /// Slices to read.
    pub read: [Vec<u8>; READ],
    /// Numbers.
    pub numbers: [u32; NUMBERS],
    /// What lent bytes hold before the call.
    pub bytes: Vec<u8>,
    /// What lent entries hold before the call.
    pub entries: Vec<u16>,
}

impl Input {
    /// The slices to read.
    pub fn slices(&self) -> [&[u8]; READ] {
        self.read.each_ref().map(Vec::as_slice)
    }
}

/// An input in memory, as a call is lent it.
#[derive(Debug)]
pub struct Lent<'a> {
    /// Slices to read.
    pub read: [&'a [u8]; READ],
    /// Numbers.
    pub numbers: [u32; NUMBERS],
    /// Lent bytes.
    pub bytes: &'a mut [u8],
    /// Lent entries.
    pub entries: &'a mut [u16],
}

/// Memory that holds an input.
pub trait Memory {
    /// Holds a copy of `input`.
    fn hold(&mut self, input: &Input);

    /// Lends what it holds.
    fn lent(&mut self) -> Lent<'_>;
}

/// Ordinary memory.
impl Memory for Input {
    fn hold(&mut self, input: &Input) {
        for (own, given) in self.read.iter_mut().zip(&input.read) {
            own.clone_from(given);
        }
        self.numbers = input.numbers;
        self.bytes.clone_from(&input.bytes);
        self.entries.clone_from(&input.entries);
    }

    fn lent(&mut self) -> Lent<'_> {
        Lent {
            read: self.read.each_ref().map(Vec::as_slice),
            numbers: self.numbers,
            bytes: &mut self.bytes,
            entries: &mut self.entries,
        }
    }
}
