//! An input, both engines' answers and what each left; what every call is held to.

use crate::harness::answer::Answer;
use crate::harness::slots::{Buffer, Input, Lent, Slots};
use std::fmt::Display;

/// An input, both answers, and what each engine left.
pub struct Asked<'a> {
    /// The input.
    pub input: &'a Input,
    /// The proved engine's answer.
    pub engine: Answer,
    /// The reference's.
    pub reference: Answer,
    /// What the proved engine left.
    pub ours: Lent<'a>,
    /// What the reference left.
    pub theirs: Lent<'a>,
}

impl Asked<'_> {
    /// Whether both accepted.
    pub fn accepted(&self) -> bool {
        self.engine.accepted() && self.reference.accepted()
    }

    /// What is wrong whatever the call: a slice to read that was written; a lent buffer that a refused
    /// call wrote, or of which an accepted one wrote more than it says.
    pub fn touched(&self, slots: &Slots) -> Option<String> {
        for (index, read) in slots.read.iter().enumerate() {
            if self.ours.read[index] != self.input.read[index] {
                return Some(format!("the {} was written", read.0));
            }
        }
        let written = match self.engine.accepted() {
            true => self.engine.values[0] as usize,
            false => 0,
        };
        match slots.buffer {
            Buffer::None => None,
            Buffer::Bytes(label) => rest(label, &self.input.bytes, self.ours.bytes, written),
            Buffer::Entries(label) => rest(label, &self.input.entries, self.ours.entries, written),
        }
    }

    /// Where the answers differ, or what was written: what all calls but the route are held to.
    pub fn unequal(&self) -> Option<String> {
        if self.engine != self.reference {
            return Some("the answers differ".to_string());
        }
        let bytes = difference(self.ours.bytes, self.theirs.bytes);
        bytes.or_else(|| difference(self.ours.entries, self.theirs.entries))
    }
}

/// What is wrong with a lent buffer from index `written` on, where nothing may have changed.
fn rest<T: PartialEq>(label: &str, before: &[T], after: &[T], written: usize) -> Option<String> {
    if written > after.len() {
        let length = after.len();
        return Some(format!("{written} written of {length} lent: {label}"));
    }
    let at = (written..after.len()).find(|&at| before[at] != after[at])?;
    Some(format!(
        "{label}: index {at} changed, {written} were to be written"
    ))
}

/// The first place where two buffers differ.
fn difference<T: PartialEq + Display>(ours: &[T], theirs: &[T]) -> Option<String> {
    let at = (0..ours.len()).find(|&at| ours[at] != theirs[at])?;
    let (ours, theirs) = (&ours[at], &theirs[at]);
    Some(format!("lent {at}: engine {ours}, reference {theirs}"))
}
