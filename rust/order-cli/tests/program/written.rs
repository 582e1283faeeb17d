//! Files that are written: whole or not at all, whatever fails.

use crate::lost::Lost;
use crate::shell::{forecourt, shell};
use order_cli::draft::Draft;
use std::collections::BTreeMap;
use std::fs;
use std::os::unix::fs::PermissionsExt;
use std::path::{Path, PathBuf};
use std::process::Stdio;
use std::sync::atomic::{AtomicUsize, Ordering};
use std::thread;

/// A command line of each sub-command that writes a file, without the file's name.
const WRITERS: [&str; 3] = [
    "order run loyalty-first/site.tab --text \"0 0\" --report",
    "order draw loyalty-first/site.tab 7 --out",
    "order build site.txt",
];

/// What a folder holds: each file's name, with its bytes.
fn held(folder: &Path) -> BTreeMap<PathBuf, Vec<u8>> {
    let entries = fs::read_dir(folder).expect("a folder");
    let paths = entries.map(|entry| entry.expect("an entry").path());
    let files = paths.filter(|path| path.is_file());
    files
        .map(|path| (path.clone(), fs::read(path).expect("a file")))
        .collect()
}

#[test]
fn nothing_changes_where_anything_fails() {
    let folder = forecourt("kept");
    for writer in WRITERS {
        for file in ["older", "absent", "absent/file", "loyalty-first"] {
            fs::write(folder.join("older"), "older").expect("a file");
            let before = held(&folder);
            let line = format!("{writer} {file}");
            for lost in Lost::ALL {
                let mut shell = shell(&folder, &(line.clone() + &lost.redirection(1)));
                let ended = shell.stdout(lost.stream()).stderr(Stdio::null()).status();
                assert_eq!(ended.expect("an end").code(), Some(2), "{line}: {lost:?}");
                assert_eq!(held(&folder), before, "{line}: {lost:?}");
            }
            let ended = shell(&folder, &format!("ulimit -f 0; {line}")).output();
            let ended = ended.expect("an end");
            assert_eq!(ended.status.code(), Some(2), "{line}");
            assert_eq!(ended.stdout, b"", "{line}");
            let begin = format!("order: cannot write {file}: ");
            assert!(ended.stderr.starts_with(begin.as_bytes()), "{line}");
            assert_eq!(held(&folder), before, "{line}");
        }
    }
}

#[test]
fn a_file_is_replaced_whole() {
    let folder = forecourt("replaced");
    for writer in WRITERS {
        let line = format!("{writer} new && {writer} old");
        let old = folder.join("old");
        fs::write(&old, "o".repeat(10_000)).expect("a file");
        fs::set_permissions(&old, fs::Permissions::from_mode(0o604)).expect("a mode");
        let before = held(&folder).len();
        let ended = shell(&folder, &line).output().expect("an end");
        assert!(ended.status.success(), "{line}");
        let new = fs::read(folder.join("new")).expect("a file");
        assert_eq!(fs::read(&old).expect("a file"), new);
        let mode = fs::metadata(&old).expect("a file").permissions().mode();
        assert_eq!(mode & 0o7777, 0o604);
        assert_eq!(held(&folder).len(), before + 1);
        fs::remove_file(folder.join("new")).expect("a file");
    }
}

#[test]
fn a_reader_meanwhile_sees_a_whole_file() {
    const WRITTEN: usize = 60;
    let folder = forecourt("read");
    let load = folder.join("load");
    let write = |seed: usize| {
        let line = format!("order draw loyalty-first/site.tab {seed} --out load");
        let ended = shell(&folder, &line).output().expect("an end");
        assert!(ended.status.success(), "{ended:?}");
    };
    let whole: Vec<Vec<u8>> = (0..6)
        .map(|seed| {
            write(seed);
            fs::read(&load).expect("a file")
        })
        .collect();
    let writers = AtomicUsize::new(whole.len());
    thread::scope(|scope| {
        for seed in 0..whole.len() {
            let (write, writers) = (&write, &writers);
            scope.spawn(move || {
                (0..WRITTEN).for_each(|_| write(seed));
                writers.fetch_sub(1, Ordering::Relaxed);
            });
        }
        while writers.load(Ordering::Relaxed) > 0 {
            let seen = fs::read(&load).expect("a file");
            assert!(whole.contains(&seen), "{seen:?}");
        }
    });
    assert!(held(&folder).keys().all(|path| !is_beside(path)));
}

/// Whether a file is one that was written beside.
fn is_beside(path: &Path) -> bool {
    let name = path.file_name().expect("a name").as_encoded_bytes();
    name.starts_with(b".order-")
}

#[test]
fn a_draft_that_is_not_put_in_its_place() {
    let folder = forecourt("drafts");
    let (before, place) = (held(&folder), folder.join("place"));
    drop(Draft::of(&place, b"new").expect("a draft"));
    assert_eq!(held(&folder), before);
    let draft = Draft::of(&place, b"new").expect("a draft");
    fs::create_dir(&place).expect("a folder");
    let words = draft.put().expect_err("a folder stands there");
    assert!(words.starts_with("order: cannot write "), "{words}");
    assert_eq!(held(&folder), before);
}
