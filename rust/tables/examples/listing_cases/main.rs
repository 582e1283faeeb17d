//! Writes the cases of the listing program: a folder each with the table `site.tab`, the schedule
//! `order.sch` and, in `expected`, what is to be printed.
//!
//! ```text
//! cargo run --package tables --example listing_cases -- ../tests/turns
//! ```

#![forbid(unsafe_code)]

mod case;
mod cases;

use std::error::Error;
use std::path::Path;

fn main() -> Result<(), Box<dyn Error>> {
    let mut arguments = std::env::args_os().skip(1);
    let (Some(folder), None) = (arguments.next(), arguments.next()) else {
        return Err("usage: listing_cases FOLDER".into());
    };
    let cases = cases::cases();
    case::write(Path::new(&folder), &cases)?;
    println!("{} cases", cases.len());
    Ok(())
}

#[cfg(test)]
mod tests {
    use super::{case, cases};
    use std::collections::BTreeMap;
    use std::fs;
    use std::path::{Path, PathBuf};

    /// The files below `folder` and their bytes, by path from `root`.
    fn stored(root: &Path, folder: &Path, files: &mut BTreeMap<PathBuf, Vec<u8>>) {
        for entry in fs::read_dir(folder).expect("a folder") {
            let path = entry.expect("an entry").path();
            if path.is_dir() {
                stored(root, &path, files);
            } else {
                let name = path.strip_prefix(root).expect("a path below the root");
                files.insert(name.into(), fs::read(&path).expect("a file"));
            }
        }
    }

    #[test]
    fn the_stored_folders_are_these() {
        let root = Path::new(env!("CARGO_MANIFEST_DIR")).join("../../tests/turns");
        let mut found = BTreeMap::new();
        stored(&root, &root, &mut found);
        // The script that runs the cases.
        assert!(found.remove(Path::new("run")).is_some());
        let made = case::files(&cases::cases());
        let names = |files: &BTreeMap<PathBuf, Vec<u8>>| -> Vec<PathBuf> {
            files.keys().cloned().collect()
        };
        assert_eq!(names(&found), names(&made));
        for (path, bytes) in &made {
            assert!(found[path] == *bytes, "{} differs", path.display());
        }
    }
}
