//! Outputs that take nothing.

use std::fs::File;
use std::io;
use std::process::Stdio;

/// Why an output takes nothing.
#[derive(Clone, Copy, PartialEq, Eq, Debug)]
pub enum Lost {
    /// It is closed.
    Closed,
    /// The disk is full.
    Full,
    /// Nobody reads the pipe.
    Broken,
    /// It may be read alone.
    ReadOnly,
}

impl Lost {
    /// All of them.
    pub const ALL: [Self; 4] = [Self::Closed, Self::Full, Self::Broken, Self::ReadOnly];

    /// What a command line ends with, for the output with this number.
    pub fn redirection(self, stream: u8) -> String {
        match self {
            Self::Closed => format!(" {stream}>&-"),
            Self::Full | Self::Broken | Self::ReadOnly => String::new(),
        }
    }

    /// What the output is before that.
    pub fn stream(self) -> Stdio {
        match self {
            Self::Closed => Stdio::null(),
            Self::Full => {
                let full = File::options().write(true).open("/dev/full");
                full.expect("a device").into()
            }
            Self::Broken => {
                let (reader, writer) = io::pipe().expect("a pipe");
                drop(reader);
                writer.into()
            }
            Self::ReadOnly => File::open("/dev/null").expect("a device").into(),
        }
    }
}
