//! An answer as C has it, field by field.

use crate::refusal::Refusal;

/// A C struct of `2 + N` numbers of 32 bits. The structs of `include/order.h`, but for that of a
/// remainder, differ only in how many values follow the first two fields, and in their names.
#[repr(C)]
#[derive(Clone, Copy, PartialEq, Eq, Hash, Debug)]
pub struct Fields<const N: usize> {
    /// 0 where the call accepted, otherwise the refusal's number.
    pub refusal: u32,
    /// The refusal's position, 0 where the call accepted.
    pub position: u32,
    /// The answer, all 0 where the call refused.
    pub values: [u32; N],
}

impl<const N: usize> Fields<N> {
    /// The values, or the refusal.
    pub(crate) fn accepted(self) -> Result<[u32; N], Refusal> {
        match self.refusal {
            0 => Ok(self.values),
            number => Err(Refusal::of(number, self.position)),
        }
    }
}
