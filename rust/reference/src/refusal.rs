//! Refusals: the documents' number and a position.

macro_rules! reasons {
    ($($(#[$doc:meta])* $number:literal $reason:ident;)*) => {
        /// Why a call refuses; the discriminant is the documents' number.
        #[derive(Clone, Copy, PartialEq, Eq, PartialOrd, Ord, Hash, Debug)]
        #[repr(u32)]
        pub enum Reason {
            $($(#[$doc])* $reason = $number,)*
        }

        impl Reason {
            /// How many there are.
            pub const COUNT: usize = [$($number),*].len();

            /// All of them, by number.
            pub const ALL: [Self; Self::COUNT] = [$(Self::$reason),*];
        }
    };
}

reasons! {
    /// The file has under 4 bytes.
    1 ShortFile;
    /// The edition is not 1.
    2 Edition;
    /// The number of actors, mailboxes or mutexes is out of its range.
    3 Count;
    /// The directory is cut short, or an entry has a wrong offset or more than 32 actions.
    4 Directory;
    /// The file does not end with the last actor's last action.
    5 FileEnd;
    /// An action's kind is unknown.
    6 Kind;
    /// A cell, mailbox, mutex, list length or listed mutex is out of range.
    7 Range;
    /// A listed action is not a lower Send or Receive of the same actor.
    8 Listed;
    /// A byte without a use is not 0.
    9 Unused;
    /// The report buffer has under 4,514 bytes.
    10 ReportRoom;
    /// An entry of the (first) schedule names no actor.
    11 NoActor;
    /// An entry of the (first) schedule names a finished actor.
    12 Finished;
    /// An entry of the (first) schedule names an actor that is not ready: it waits.
    13 NotReady;
    /// An entry of the second schedule names no actor.
    14 SecondNoActor;
    /// An entry of the second schedule names a finished actor.
    15 SecondFinished;
    /// An entry of the second schedule names an actor that is not ready: it waits.
    16 SecondNotReady;
    /// A step's name is not in the table.
    17 NoStep;
    /// The route buffer has under m·(m − 1)/2 entries, m being the schedules' length.
    18 RouteRoom;
    /// The schedules are different, so that there is no route.
    19 Different;
    /// The page buffer has under 816 bytes.
    20 PageRoom;
    /// An entry of the (first) schedule names an actor whose Add would pass 4,294,967,295.
    21 Over;
    /// An entry of the second schedule names an actor whose Add would pass 4,294,967,295.
    22 SecondOver;
    /// The buffer for a schedule that is made has under 256 entries.
    23 ScheduleRoom;
}

impl Reason {
    /// The reasons to refuse a table, in the order in which they are looked for.
    pub const OF_TABLE: [Self; 9] = [
        Self::ShortFile,
        Self::Edition,
        Self::Count,
        Self::Directory,
        Self::FileEnd,
        Self::Kind,
        Self::Range,
        Self::Listed,
        Self::Unused,
    ];

    /// The reasons to refuse an entry of the only schedule, or of the first of two.
    pub const OF_FIRST: [Self; 4] = [Self::NoActor, Self::Finished, Self::NotReady, Self::Over];

    /// The reasons to refuse an entry of the second schedule.
    pub const OF_SECOND: [Self; 4] = [
        Self::SecondNoActor,
        Self::SecondFinished,
        Self::SecondNotReady,
        Self::SecondOver,
    ];

    /// The documents' number.
    pub const fn number(self) -> u32 {
        self as u32
    }

    /// The reason with this number, if there is one.
    pub fn of(number: u32) -> Option<Self> {
        let mut all = Self::ALL.into_iter();
        all.find(|reason| reason.number() == number)
    }
}

/// A refusal: its reason and the position it arose at.
#[derive(Clone, Copy, PartialEq, Eq, Debug)]
pub struct Refusal {
    /// Why.
    pub reason: Reason,
    /// Where: the action's offset for [`Reason::Kind`] to [`Reason::Unused`], the entry's index for
    /// [`Reason::OF_FIRST`] and [`Reason::OF_SECOND`], otherwise 0.
    pub position: u32,
}

impl Refusal {
    /// The refusal of `reason` at `position`.
    pub const fn new(reason: Reason, position: u32) -> Self {
        Self { reason, position }
    }

    /// The documents' number.
    pub const fn number(self) -> u32 {
        self.reason.number()
    }
}
