//! Why a call refuses, and where.

use std::error::Error;
use std::fmt;

macro_rules! reasons {
    ($($number:literal $reason:ident $sentence:literal;)*) => {
        /// Why a call refuses. The discriminant is the refusal's number.
        #[derive(Clone, Copy, PartialEq, Eq, PartialOrd, Ord, Hash, Debug)]
        #[repr(u32)]
        #[non_exhaustive]
        pub enum Reason {
            $(#[doc = $sentence] $reason = $number,)*
        }

        impl Reason {
            /// All of them, by number.
            pub const ALL: &'static [Self] = &[$(Self::$reason),*];

            /// What is wrong, in plain words.
            pub const fn sentence(self) -> &'static str {
                match self {
                    $(Self::$reason => $sentence,)*
                }
            }
        }
    };
}

reasons! {
    1 ShortTable "the table is shorter than its header";
    2 Edition "the table's edition is not 1";
    3 Count "a count in the table's header is out of its range";
    4 Directory "the table's directory is cut short or has a wrong entry";
    5 TableEnd "the table does not end where its directory says";
    6 Kind "the action has an unknown kind";
    7 Range "the action names a cell, mailbox or mutex that does not exist, or its list's length is not 1 to 4";
    8 Listed "the action lists one that is not an earlier Send or Receive of its actor";
    9 Unused "a byte that the action does not use is not 0";
    10 ReportRoom "the report buffer is too small";
    11 NoActor "the schedule's entry names no actor of the table";
    12 Finished "the schedule's entry names an actor that already finished";
    13 NotReady "the schedule's entry names an actor that is not ready";
    14 SecondNoActor "the second schedule's entry names no actor of the table";
    15 SecondFinished "the second schedule's entry names an actor that already finished";
    16 SecondNotReady "the second schedule's entry names an actor that is not ready";
    17 NoStep "a step's name is not in the table";
    18 RouteRoom "the route buffer is too small";
    19 Different "the schedules are not the same, so that no route joins them";
    20 PageRoom "the page buffer is too small";
    21 Over "the schedule's entry names an actor whose Add would pass 4294967295";
    22 SecondOver "the second schedule's entry names an actor whose Add would pass 4294967295";
    23 ScheduleRoom "the schedule buffer is too small";
}

impl Reason {
    /// The refusal's number.
    pub const fn number(self) -> u32 {
        self as u32
    }

    /// The reason with this number, if there is one.
    pub fn of(number: u32) -> Option<Self> {
        let mut all = Self::ALL.iter().copied();
        all.find(|reason| reason.number() == number)
    }
}

/// Why a call refused, and where.
///
/// A refused call changes nothing that it was lent. Shown, it is a sentence:
///
/// ```
/// let refusal = order_engine::check(&[]).unwrap_err();
/// assert_eq!(refusal.reason(), order_engine::Reason::ShortTable);
/// let words = "refused 1 at 0: the table is shorter than its header";
/// assert_eq!(refusal.to_string(), words);
/// ```
#[derive(Clone, Copy, PartialEq, Eq, Hash, Debug)]
pub struct Refusal {
    reason: Reason,
    position: u32,
}

impl Refusal {
    /// A refusal that a call gave.
    pub(crate) fn of(number: u32, position: u32) -> Self {
        let Some(reason) = Reason::of(number) else {
            unreachable!("a call answered with refusal {number}");
        };
        Self { reason, position }
    }

    /// Why.
    pub const fn reason(&self) -> Reason {
        self.reason
    }

    /// The refusal's number.
    pub const fn number(&self) -> u32 {
        self.reason.number()
    }

    /// Where it arose: for refusals of an action (6 to 9) its offset in the table, for refusals of a
    /// schedule's entry (11 to 16, 21, 22) its index, otherwise 0.
    pub const fn position(&self) -> u32 {
        self.position
    }

    /// What is wrong, in plain words.
    pub const fn sentence(&self) -> &'static str {
        self.reason.sentence()
    }
}

impl fmt::Display for Refusal {
    fn fmt(&self, f: &mut fmt::Formatter<'_>) -> fmt::Result {
        let (number, position) = (self.number(), self.position);
        write!(f, "refused {number} at {position}: {}", self.sentence())
    }
}

impl Error for Refusal {}

#[cfg(test)]
mod tests {
    use super::Reason;
    use std::collections::HashSet;

    #[test]
    fn each_number_has_a_sentence_of_its_own() {
        let count = Reason::ALL.len();
        let said: HashSet<&str> = Reason::ALL.iter().map(|reason| reason.sentence()).collect();
        assert_eq!(said.len(), count);
        for (index, reason) in Reason::ALL.iter().enumerate() {
            assert_eq!(reason.number() as usize, index + 1);
            assert_eq!(Reason::of(reason.number()), Some(*reason));
        }
        for number in [0, count as u32 + 1, u32::MAX] {
            assert_eq!(Reason::of(number), None);
        }
    }
}
