//! A file that is written whole or not at all: beside its place first, and then put there by a rename.
//! Until then, and where anything fails, an older file stays as it was.

use crate::answer::Failure;
use crate::files::are_one;
use crate::shown::shown;
use std::fs::{self, File, Metadata, Permissions};
use std::io::{self, Write};
use std::os::unix::ffi::OsStrExt;
use std::os::unix::fs::{MetadataExt, OpenOptionsExt, PermissionsExt, fchown};
use std::path::{Path, PathBuf};
use std::process;

/// How many links in a row the system follows.
const LINKS: usize = 40;

/// How many names are tried for the file beside.
const NAMES: u32 = 1_000;

/// What the system adds to the name that an open file had.
const NAMELESS: &[u8] = b" (deleted)";

/// A file that waits to be put in its place. Dropped before that, it is removed.
#[derive(Debug)]
pub struct Draft {
    /// The place as it was named.
    named: PathBuf,
    /// The file beside and its place; `None` once it is put there, and for what is no file on a disk.
    waits: Option<(PathBuf, PathBuf)>,
}

/// Where a file is put: behind all links, and what stands there.
struct Place {
    path: PathBuf,
    old: Option<Metadata>,
}

impl Draft {
    /// Writes the bytes beside the place that `path` names. A device or a FIFO is written as it is.
    pub fn of(path: &Path, bytes: &[u8]) -> Result<Self, Failure> {
        let mut draft = Self {
            named: path.to_owned(),
            waits: None,
        };
        let written = match place(path) {
            Ok(Some(place)) => draft.write(place, bytes),
            Ok(None) => write_as_it_is(path, bytes),
            Err(error) => Err(error),
        };
        written.map_err(|error| {
            let path = shown(path);
            Failure::Trouble(format!("order: cannot write {path}: {error}\n"))
        })?;
        Ok(draft)
    }

    /// Writes the bytes beside the place, with the mode of the file that stands there.
    fn write(&mut self, place: Place, bytes: &[u8]) -> io::Result<()> {
        let (path, mut file) = beside(&place)?;
        self.waits = Some((path, place.path));
        file.write_all(bytes)?;
        if let Some(old) = place.old {
            keep(&file, &old)?;
        }
        file.sync_all()
    }

    /// Puts the file in its place; otherwise says why not.
    pub fn put(mut self) -> Result<(), String> {
        let Some((path, place)) = &self.waits else {
            return Ok(());
        };
        fs::rename(path, place).map_err(|error| {
            let named = shown(&self.named);
            format!("order: cannot write {named}, which is as it was: {error}\n")
        })?;
        self.waits = None;
        Ok(())
    }
}

impl Drop for Draft {
    fn drop(&mut self) {
        if let Some((path, _)) = &self.waits {
            let _ = fs::remove_file(path);
        }
    }
}

/// Writes what no rename can put. A file that has a name is never truncated, also where it has come
/// just now.
fn write_as_it_is(path: &Path, bytes: &[u8]) -> io::Result<()> {
    let mut file = File::options().write(true).open(path)?;
    let found = file.metadata()?;
    if found.is_file() && found.nlink() > 0 {
        return Err(io::Error::other("another file has come in its place"));
    }
    if found.is_file() {
        file.set_len(0)?;
    }
    file.write_all(bytes)
}

/// Where a file of this name is put; `None` where no rename can put it: a device, a FIFO, a folder, an
/// open file without a name.
fn place(path: &Path) -> io::Result<Option<Place>> {
    let named = found(path)?;
    match &named {
        Some(found) if !found.is_file() => return Ok(None),
        // A file that may not be written is not replaced either.
        Some(_) => drop(File::options().write(true).open(path)?),
        None => {}
    }
    let place = behind_links(path);
    // Others may write the same file meanwhile: what stands there now is replaced.
    let old = found(&place)?;
    let is_other = match (&named, &old) {
        (Some(named), Some(old)) => !are_one(named, old),
        (Some(_), None) => true,
        (None, _) => false,
    };
    if is_other && place != path && place.as_os_str().as_bytes().ends_with(NAMELESS) {
        return match named.is_some_and(|named| named.nlink() == 0) {
            true => Ok(None),
            false => Err(io::Error::other("the open file has another name now")),
        };
    }
    match old {
        Some(old) if !old.is_file() => Ok(None),
        None if !ends_in_name(&place) => Ok(None),
        old => Ok(Some(Place { path: place, old })),
    }
}

/// What stands there.
fn found(path: &Path) -> io::Result<Option<Metadata>> {
    match fs::metadata(path) {
        Ok(found) => Ok(Some(found)),
        Err(error) if error.kind() == io::ErrorKind::NotFound => Ok(None),
        Err(error) => Err(error),
    }
}

/// Whether a path ends in a name, and not in a dot or a slash.
fn ends_in_name(path: &Path) -> bool {
    let whole = path.as_os_str().as_bytes();
    let name = path.file_name().map(OsStrExt::as_bytes);
    name.is_some_and(|name| whole.ends_with(name))
}

/// What a path leads to, link after link, whether it is there or not.
fn behind_links(path: &Path) -> PathBuf {
    let mut path = path.to_owned();
    for _ in 0..LINKS {
        let Ok(target) = fs::read_link(&path) else {
            break;
        };
        path.pop();
        path.push(target);
    }
    path
}

/// A new file beside the place. Where it replaces one, nobody else may read it before it has its mode.
fn beside(place: &Place) -> io::Result<(PathBuf, File)> {
    let mode = if place.old.is_some() { 0o600 } else { 0o666 };
    let mut options = File::options();
    options.write(true).create_new(true).mode(mode);
    let mut taken = io::Error::from(io::ErrorKind::AlreadyExists);
    for number in 0..NAMES {
        let name = format!(".order-{}-{number}", process::id());
        let path = place.path.with_file_name(name);
        match options.open(&path) {
            Ok(file) => return Ok((path, file)),
            Err(error) if error.kind() == io::ErrorKind::AlreadyExists => taken = error,
            Err(error) if place.old.is_some() => {
                let words = format!("no file can be made beside it: {error}");
                return Err(io::Error::new(error.kind(), words));
            }
            Err(error) => return Err(error),
        }
    }
    Err(taken)
}

/// Gives the file the mode of the old one, and its owner and group where the system allows that. What
/// lets others run it as its owner or group stays only with these.
fn keep(file: &File, old: &Metadata) -> io::Result<()> {
    let owner = |file: &Metadata| (Some(file.uid()), Some(file.gid()));
    let (user, group) = owner(old);
    if owner(&file.metadata()?) != (user, group) {
        let _ = fchown(file, user, group).or_else(|_| fchown(file, None, group));
    }
    let new = file.metadata()?;
    let bits = if owner(&new) == owner(old) {
        0o7777
    } else {
        0o777
    };
    let mode = old.mode() & bits;
    match new.mode() & 0o7777 == mode {
        true => Ok(()),
        false => file.set_permissions(Permissions::from_mode(mode)),
    }
}
