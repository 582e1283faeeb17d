//! Which file is which.

use std::fs::Metadata;
use std::os::unix::fs::MetadataExt;

/// Whether both are one file, whose bytes are lost where it is written: a terminal or another device is
/// none.
pub fn are_one(one: &Metadata, other: &Metadata) -> bool {
    one.is_file() && (one.dev(), one.ino()) == (other.dev(), other.ino())
}
