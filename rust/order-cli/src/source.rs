//! What an operand gives to read: a file, as much of it as an answer needs, or a text in its place.

use crate::answer::Failure;
use crate::length::Length;
use crate::operand::Operand;
use crate::shown::shown;
use std::fs::File;
use std::io::{self, Read};
use std::ops::Deref;
use std::path::Path;
use tables::layout::LONGEST;
use tables::text::{Mistake, quoted, schedule};

/// The bytes of a table or a schedule that settle every answer. A longer table is refused whatever
/// follows, and so is a schedule: none that is accepted is as long.
pub const ENOUGH: usize = LONGEST + 1;

/// The bytes that are counted of what tells no length.
pub const COUNTED: u64 = 1 << 20;

/// What was read.
#[derive(Clone, PartialEq, Eq, Debug)]
pub struct Source {
    bytes: Vec<u8>,
    length: Length,
    role: &'static str,
    name: String,
    is_file: bool,
}

impl Source {
    /// The file, or its first `most` bytes.
    pub fn of_file(operand: &Operand, path: &Path, most: usize) -> Result<Self, Failure> {
        match read(path, most) {
            Ok((bytes, length)) => Ok(Self {
                bytes,
                length,
                role: operand.role,
                name: shown(path),
                is_file: true,
            }),
            Err(error) => {
                let path = shown(path);
                Err(Failure::Trouble(format!(
                    "order: cannot read {path}: {error}\n"
                )))
            }
        }
    }

    /// The schedule of a text.
    pub fn of_text(operand: &Operand, text: &str) -> Result<Self, Mistake> {
        let name = format!("the text {}", quoted(text));
        Ok(Self::of_bytes(operand, &name, schedule(text)?))
    }

    /// These bytes, which no file has; messages call them by this name.
    pub fn of_bytes(operand: &Operand, name: &str, bytes: Vec<u8>) -> Self {
        Self {
            length: Length::Exactly(bytes.len() as u64),
            bytes,
            role: operand.role,
            name: name.to_owned(),
            is_file: false,
        }
    }

    /// How long it is, read or not.
    pub fn length(&self) -> Length {
        self.length
    }

    /// What it was given as: `the table`.
    pub fn role(&self) -> &'static str {
        self.role
    }

    /// The file's name as messages show it; of a text, its beginning.
    pub fn name(&self) -> &str {
        &self.name
    }

    /// Whether a file gave it.
    pub fn is_file(&self) -> bool {
        self.is_file
    }
}

impl Deref for Source {
    type Target = [u8];

    fn deref(&self) -> &[u8] {
        &self.bytes
    }
}

/// The first bytes of a file, and how many it has.
fn read(path: &Path, most: usize) -> io::Result<(Vec<u8>, Length)> {
    let mut file = File::open(path)?;
    let mut bytes = Vec::new();
    (&mut file).take(most as u64).read_to_end(&mut bytes)?;
    let found = bytes.len() as u64;
    if bytes.len() < most {
        return Ok((bytes, Length::Exactly(found)));
    }
    let said = file.metadata()?;
    let length = match said.is_file() && said.len() >= found {
        true => Length::Exactly(said.len()),
        false => counted(found, file)?,
    };
    Ok((bytes, length))
}

/// The length of what tells none, as a pipe: these bytes, and those that are left.
fn counted(bytes: u64, file: File) -> io::Result<Length> {
    let left = COUNTED.saturating_sub(bytes) + 1;
    let more = io::copy(&mut file.take(left), &mut io::sink())?;
    Ok(match more < left {
        true => Length::Exactly(bytes + more),
        false => Length::Over(COUNTED),
    })
}
