//! An input on which the engines differ, for a reader to look at.

use crate::harness::answer::Answer;
use crate::harness::call::Call;
use crate::harness::slots::{Buffer, Input, Role};
use std::fmt;

/// An input, what the engines made of it, and what is wrong.
pub struct Difference {
    /// The call.
    pub call: &'static Call,
    /// The input.
    pub input: Input,
    /// The proved engine's answer and the reference's, unless one panicked.
    pub answers: Option<(Answer, Answer)>,
    /// What is wrong, in words.
    pub mistake: String,
}

impl fmt::Display for Difference {
    fn fmt(&self, f: &mut fmt::Formatter<'_>) -> fmt::Result {
        let mut line = |label: &str, words: String| writeln!(f, "{label:<18}{words}");
        let (slots, input) = (&self.call.slots, &self.input);
        line("call:", self.call.name.to_string())?;
        for (read, slice) in slots.read.iter().zip(&input.read) {
            let words = match read.1 {
                Role::Table => format!("{} bytes: {}", slice.len(), hex(slice)),
                Role::First | Role::Second => format!("{} entries: {slice:?}", slice.len()),
            };
            line(&format!("{}:", read.0), words)?;
        }
        for (number, value) in slots.numbers.iter().zip(input.numbers) {
            line(&format!("{}:", number.label()), value.to_string())?;
        }
        match slots.buffer {
            Buffer::None => {}
            Buffer::Bytes(label) => {
                line(&format!("{label}:"), format!("{} bytes", input.bytes.len()))?
            }
            Buffer::Entries(label) => line(
                &format!("{label}:"),
                format!("{} entries", input.entries.len()),
            )?,
        }
        if let Some((engine, reference)) = &self.answers {
            line("engine:", engine.to_string())?;
            line("reference:", reference.to_string())?;
        }
        write!(f, "{:<18}{}", "mistake:", self.mistake)
    }
}

fn hex(bytes: &[u8]) -> String {
    let pairs: Vec<String> = bytes.iter().map(|byte| format!("{byte:02x}")).collect();
    pairs.join(" ")
}
