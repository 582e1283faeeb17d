//! What a sub-command answers, and the exit statuses.

use crate::draft::Draft;
use crate::shown::shown;
use crate::words::count;
use std::fs::File;
use std::io::{self, Write};
use std::path::Path;
use std::process::ExitCode;

/// The exit status of an answer.
pub const ANSWERED: u8 = 0;
/// The exit status where the engine refuses.
pub const REFUSED: u8 = 1;
/// The exit status of wrong use, of a file or an output that cannot be read or written, and of a
/// mistake in a text.
pub const WRONG_USE: u8 = 2;
/// The exit status of a quiet "different" or "dependent".
pub const QUIET_NO: u8 = 3;

/// An answer.
#[derive(Debug)]
pub struct Answer {
    /// What goes to standard output.
    pub words: String,
    /// The exit status.
    pub status: u8,
    /// A file that belongs to it, which is put in its place once the words are out.
    pub draft: Option<Draft>,
}

impl Answer {
    /// An answer in words.
    pub fn of(words: String) -> Self {
        Self {
            words,
            status: ANSWERED,
            draft: None,
        }
    }

    /// An answer without words.
    pub fn quiet(yes: bool) -> Self {
        Self {
            status: if yes { ANSWERED } else { QUIET_NO },
            ..Self::of(String::new())
        }
    }

    /// The answer with a file of these bytes.
    pub fn with_file(self, path: &Path, bytes: &[u8]) -> Result<Self, Failure> {
        let draft = Some(Draft::of(path, bytes)?);
        Ok(Self { draft, ..self })
    }

    /// The answer with a file of these bytes, if there is a path for it, and a line that says so;
    /// `what` is in it.
    pub fn also_in(self, path: Option<&Path>, what: &str, bytes: &[u8]) -> Result<Self, Failure> {
        let Some(path) = path else {
            return Ok(self);
        };
        let mut answer = self.with_file(path, bytes)?;
        let written = count(bytes.len(), "byte", "bytes");
        answer.words += &format!("{what}: {written} written to {}\n", shown(path));
        Ok(answer)
    }
}

/// Why there is no answer, in words for standard error.
#[derive(Clone, PartialEq, Eq, Debug)]
pub enum Failure {
    /// The engine refuses.
    Refused(String),
    /// The arguments are wrong.
    Use(String),
    /// A file or an output cannot be read or written, or a text has a mistake.
    Trouble(String),
}

/// What the command says and how it exits.
#[derive(Debug)]
pub struct Said {
    /// What goes to standard output.
    pub output: String,
    /// What goes to standard error.
    pub errors: String,
    /// The exit status.
    pub status: u8,
    /// A file to put in its place after that.
    pub draft: Option<Draft>,
}

impl Said {
    /// Words for standard error alone.
    pub fn failed(words: String, status: u8) -> Self {
        Self {
            output: String::new(),
            errors: words,
            status,
            draft: None,
        }
    }

    /// Prints it, and puts its file in its place once the output is written. What cannot be written is
    /// said on standard error; where that fails too, the exit status alone tells.
    pub fn print(self) -> ExitCode {
        let Self {
            output,
            mut errors,
            mut status,
            draft,
        } = self;
        let printed = write(&streams::output(), &output)
            .map_err(|error| format!("order: cannot write standard output: {error}\n"));
        let done = printed.and_then(|()| draft.map_or(Ok(()), Draft::put));
        if let Err(words) = done {
            errors += &words;
            status = WRONG_USE;
        }
        let _ = write(&streams::errors(), &errors);
        ExitCode::from(status)
    }
}

impl From<Answer> for Said {
    fn from(answer: Answer) -> Self {
        Self {
            output: answer.words,
            errors: String::new(),
            status: answer.status,
            draft: answer.draft,
        }
    }
}

fn write(mut stream: &File, words: &str) -> io::Result<()> {
    stream.write_all(words.as_bytes())
}
