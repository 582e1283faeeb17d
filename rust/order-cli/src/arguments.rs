//! The arguments after a sub-command's name, told apart: operands, options and their values.

use crate::answer::Failure;
use crate::help;
use crate::operand::{Choice, QUIET};
use crate::shown::shown;
use std::ffi::{OsStr, OsString};
use std::os::unix::ffi::OsStrExt;
use std::slice::Iter;
use tables::text::quoted;

/// Gives a schedule in text.
pub const TEXT: &str = "--text";

/// Ends options: what follows is none, whatever it looks like.
pub const END: &str = "--";

/// The arguments of a sub-command.
#[derive(Clone, Debug, Default)]
pub struct Arguments<'a> {
    /// The operands.
    pub operands: Vec<Word<'a>>,
    /// The options, each with its value where it has one.
    pub options: Vec<(&'static Choice, Option<&'a OsStr>)>,
    /// The word that asks for help.
    pub help: Option<&'a OsStr>,
}

/// An operand as it was given.
#[derive(Clone, Copy, Debug)]
pub enum Word<'a> {
    /// As it stands.
    Plain(&'a OsStr),
    /// As a text.
    Text(&'a OsStr),
}

impl<'a> Arguments<'a> {
    /// Tells the arguments of a sub-command with these options apart.
    pub fn of(options: &'static [Choice], arguments: &'a [OsString]) -> Result<Self, Failure> {
        let mut told = Self::default();
        let mut rest = Rest {
            words: arguments.iter(),
            is_ended: false,
        };
        while let Some(word) = rest.next() {
            if rest.is_ended || !looks_like_option(word) {
                told.operands.push(Word::Plain(word));
            } else {
                told.take(options, word, &mut rest)?;
            }
        }
        Ok(told)
    }

    /// Adds what looks like an option, with its value.
    fn take(
        &mut self,
        options: &'static [Choice],
        word: &'a OsStr,
        rest: &mut Rest<'a>,
    ) -> Result<(), Failure> {
        let (name, value) = split(word);
        let choice = options.iter().find(|one| name == one.name);
        if help::asked(word) {
            self.help = Some(word);
        } else if name == TEXT {
            let text = rest.value(TEXT, "a text", value)?;
            self.operands.push(Word::Text(text));
        } else if let Some(choice) = choice {
            let value = match (choice.target, value) {
                (Some(target), _) => Some(rest.value(choice.name, target, value)?),
                (None, None) => None,
                (None, Some(_)) => return wrong(format!("{} takes no value", choice.name)),
            };
            self.options.push((choice, value));
        } else {
            return wrong(format!("there is no option `{}`", shown(word)));
        }
        Ok(())
    }

    /// Whether help is asked for. Where the exit status is a verdict, help would be taken for one.
    pub fn want_help(&self) -> Result<bool, Failure> {
        let by_status = self.options.iter().any(|(one, _)| one.verdicts.is_some());
        match self.help {
            Some(word) if by_status => wrong(format!(
                "{0} asks for help, which {QUIET} leaves no room for; a file called {0} is given after {END}",
                shown(word)
            )),
            help => Ok(help.is_some()),
        }
    }
}

/// The arguments that are left.
struct Rest<'a> {
    words: Iter<'a, OsString>,
    is_ended: bool,
}

impl<'a> Rest<'a> {
    /// The next one; what ends options is none.
    fn next(&mut self) -> Option<&'a OsStr> {
        let word = self.words.next()?;
        if self.is_ended || word != END {
            return Some(word);
        }
        self.is_ended = true;
        self.next()
    }

    /// The value of `option`: what is joined to it, or else the next argument. One that looks like an
    /// option is taken for a value that was forgotten.
    fn value(
        &mut self,
        option: &str,
        what: &str,
        joined: Option<&'a OsStr>,
    ) -> Result<&'a OsStr, Failure> {
        match joined.or_else(|| self.next()) {
            Some(next) if joined.is_none() && !self.is_ended && looks_like_option(next) => {
                let next = quoted(&next.to_string_lossy());
                wrong(format!(
                    "{what} is missing after {option}: {next} looks like an option, and is none after {option}= or {END}"
                ))
            }
            Some(value) => Ok(value),
            None => wrong(format!("{what} is missing after {option}")),
        }
    }
}

fn looks_like_option(argument: &OsStr) -> bool {
    argument.as_bytes().starts_with(b"-")
}

/// An option's name, and its value where that is joined to it by `=`.
fn split(option: &OsStr) -> (&OsStr, Option<&OsStr>) {
    let bytes = option.as_bytes();
    match bytes.iter().position(|&byte| byte == b'=') {
        Some(at) => {
            let [name, value] = [&bytes[..at], &bytes[at + 1..]].map(OsStr::from_bytes);
            (name, Some(value))
        }
        None => (option, None),
    }
}

/// Wrong use.
pub fn wrong<T>(words: String) -> Result<T, Failure> {
    Err(Failure::Use(words))
}
