//! What the longer of two recordings has after the length of the shorter.

unsafe extern "C" {
    fn order_remainder(
        first: *const u8,
        first_length: usize,
        second: *const u8,
        second_length: usize,
    ) -> Remainder;
}

/// Which of two recordings.
#[derive(Clone, Copy, PartialEq, Eq, Hash, Debug)]
pub enum Recording {
    /// The first.
    First,
    /// The second.
    Second,
}

/// A remainder as C has it.
#[repr(C)]
#[derive(Clone, Copy, PartialEq, Eq, Hash, Debug)]
pub struct Remainder {
    /// The recording that it is of: 1 the first, 2 the second.
    pub recording: u32,
    /// The index at which it begins there.
    pub from: usize,
    /// How many entries it has.
    pub length: usize,
}

impl Remainder {
    /// The recording that it is of.
    pub fn which(&self) -> Recording {
        match self.recording {
            1 => Recording::First,
            2 => Recording::Second,
            other => unreachable!("order_remainder answered with recording {other}"),
        }
    }
}

/// The remainder of the longer recording after the length of the shorter: a part of the slice that was
/// lent. With equal lengths it is the empty end of the first.
///
/// Looks at the two lengths only, and refuses nothing.
///
/// ```
/// let (pump, server) = ([0, 0, 1, 1, 2], [1, 0, 0]);
/// assert_eq!(order_engine::remainder(&pump, &server), [1, 2]);
/// assert!(order_engine::remainder(&server, &server).is_empty());
/// ```
pub fn remainder<'a>(first: &'a [u8], second: &'a [u8]) -> &'a [u8] {
    let left = fields(first, second);
    let whole = match left.which() {
        Recording::First => first,
        Recording::Second => second,
    };
    &whole[left.from..][..left.length]
}

/// The answer as C has it.
pub fn fields(first: &[u8], second: &[u8]) -> Remainder {
    // SAFETY: pointers and lengths are those of slices that are borrowed throughout the call, which
    // looks at the lengths alone.
    unsafe { order_remainder(first.as_ptr(), first.len(), second.as_ptr(), second.len()) }
}
