//! The kinds of action: number, name and use of the bytes, a line for each.

/// What an action's first field, p, counts.
#[derive(Clone, Copy, PartialEq, Eq, Hash, Debug)]
pub enum Field {
    /// A cell of the actor.
    Cell,
    /// A mailbox.
    Mailbox,
    /// A mutex.
    Mutex,
}

/// What an action has after its first field.
#[derive(Clone, Copy, PartialEq, Eq, Hash, Debug)]
pub enum Rest {
    /// Nothing.
    Nothing,
    /// A value of 32 bits, in b4 to b7.
    Value,
    /// A cell, in q.
    Cell,
    /// A list of earlier Sends and Receives of its actor: z of them, from b4 on.
    Communications,
    /// A list of mutexes: z of them, from b4 on.
    Mutexes,
}

macro_rules! kinds {
    ($($(#[$doc:meta])* $code:literal $kind:ident $word:literal, $field:ident, $rest:ident;)*) => {
        /// A kind of action. The discriminant is the number that stands in a table.
        #[derive(Clone, Copy, PartialEq, Eq, PartialOrd, Ord, Hash, Debug)]
        #[repr(u8)]
        pub enum Kind {
            $($(#[$doc])* $kind = $code,)*
        }

        impl Kind {
            /// How many kinds there are. Numbers from this one on are no kind.
            pub const COUNT: usize = [$($code),*].len();

            /// All of them, by number.
            pub const ALL: [Self; Self::COUNT] = [$(Self::$kind),*];

            /// The name, as the specification has it.
            pub const fn name(self) -> &'static str {
                match self {
                    $(Self::$kind => stringify!($kind),)*
                }
            }

            /// The word for it in a table's text form.
            pub const fn word(self) -> &'static str {
                match self {
                    $(Self::$kind => $word,)*
                }
            }

            /// What p counts.
            pub const fn field(self) -> Field {
                match self {
                    $(Self::$kind => Field::$field,)*
                }
            }

            /// What follows p.
            pub const fn rest(self) -> Rest {
                match self {
                    $(Self::$kind => Rest::$rest,)*
                }
            }
        }
    };
}

kinds! {
    /// Sets a cell to a value.
    0 Set "set", Cell, Value;
    /// Adds one cell to another.
    1 Add "add", Cell, Cell;
    /// Keeps the smaller of two cells.
    2 Lesser "lesser", Cell, Cell;
    /// Posts a cell's value to a mailbox.
    3 Send "send", Mailbox, Cell;
    /// Asks a mailbox for a value.
    4 Receive "receive", Mailbox, Cell;
    /// Looks for a communication that is done.
    5 TestAny "test", Cell, Communications;
    /// Waits for a communication that is done.
    6 WaitAny "wait", Cell, Communications;
    /// Queues for a mutex, or locks it once more.
    7 Lock "lock", Mutex, Nothing;
    /// Undoes a Lock of a mutex.
    8 Unlock "unlock", Mutex, Nothing;
    /// Looks for a mutex that is owned.
    9 MutexTest "mutex-test", Cell, Mutexes;
    /// Waits for a mutex that is owned.
    10 MutexWait "mutex-wait", Cell, Mutexes;
    /// Adds its name and a cell's value to the journal.
    11 Note "note", Cell, Nothing;
}

impl Kind {
    /// The kind with this number, if there is one.
    #[inline]
    pub const fn of(code: u8) -> Option<Self> {
        if (code as usize) < Self::COUNT {
            Some(Self::ALL[code as usize])
        } else {
            None
        }
    }

    /// The number that stands in a table.
    pub const fn code(self) -> u8 {
        self as u8
    }
}

// The numbers are those of the places in `ALL`.
const _: () = {
    let mut code = 0;
    while code < Kind::COUNT {
        assert!(Kind::ALL[code] as usize == code);
        code += 1;
    }
};
