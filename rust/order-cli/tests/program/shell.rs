//! A folder for a test, and command lines run there.

use std::env;
use std::fs;
use std::path::{Path, PathBuf};
use std::process::Command;

/// A new folder with this name, with a copy of the forecourt's files.
pub fn forecourt(name: &str) -> PathBuf {
    let source = Path::new(env!("CARGO_MANIFEST_DIR")).join("../../examples/forecourt");
    let copy = Path::new(env!("CARGO_TARGET_TMPDIR")).join(name);
    if copy.exists() {
        fs::remove_dir_all(&copy).expect("an old folder");
    }
    let mut folders = vec![PathBuf::new()];
    while let Some(folder) = folders.pop() {
        fs::create_dir_all(copy.join(&folder)).expect("a folder");
        for entry in fs::read_dir(source.join(&folder)).expect("the examples") {
            let entry = entry.expect("an entry");
            let path = folder.join(entry.file_name());
            if entry.path().is_dir() {
                folders.push(path);
            } else {
                fs::copy(entry.path(), copy.join(path)).expect("a copy");
            }
        }
    }
    copy
}

/// A command line, run by a shell that finds the program.
pub fn shell(folder: &Path, line: &str) -> Command {
    let program = Path::new(env!("CARGO_BIN_EXE_order"));
    let mut path = program.parent().expect("a folder").as_os_str().to_owned();
    path.push(":");
    path.push(env::var_os("PATH").unwrap_or_default());
    let mut shell = Command::new("sh");
    shell
        .args(["-c", line])
        .current_dir(folder)
        .env("PATH", &path);
    shell
}
