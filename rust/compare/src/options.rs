//! The programs' command lines.

use crate::calls;
use crate::harness::call::Call;
use std::env;

/// What a command line may have.
fn usage() -> String {
    let names: Vec<&str> = calls::ALL.iter().map(|call| call.name).collect();
    let names = names.join(" | ");
    format!("usage: [{names}]... [--seed N] [--cases N] [--minutes N]")
}

/// What a command line asks for.
#[derive(Debug, Default)]
pub struct Options {
    /// The seed, if it names one.
    pub seed: Option<u64>,
    /// The number of random inputs for each call, if it names one.
    pub cases: Option<usize>,
    /// The number of minutes, if it names one.
    pub minutes: Option<u64>,
    names: Vec<String>,
}

impl Options {
    /// Reads the program's own command line; a mistake in words.
    pub fn read() -> Result<Self, String> {
        Self::of(env::args().skip(1))
    }

    /// Reads a command line.
    pub fn of(mut words: impl Iterator<Item = String>) -> Result<Self, String> {
        let mut options = Self::default();
        while let Some(word) = words.next() {
            let mut number = || {
                let number = words.next().and_then(|word| word.parse::<u64>().ok());
                number.ok_or_else(|| format!("{word} wants a number"))
            };
            match word.as_str() {
                "--seed" => options.seed = Some(number()?),
                "--cases" => options.cases = Some(number()? as usize),
                "--minutes" => options.minutes = Some(number()?),
                name if calls::ALL.iter().any(|call| call.name == name) => options.names.push(word),
                _ => return Err(format!("there is no call or option {word}\n{}", usage())),
            }
        }
        Ok(options)
    }

    /// The calls named, or all where none is.
    pub fn calls(&self) -> impl Iterator<Item = &'static Call> {
        let named =
            |call: &&Call| self.names.is_empty() || self.names.iter().any(|name| name == call.name);
        calls::ALL.iter().filter(named)
    }
}
