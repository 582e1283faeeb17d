//! A case of the listing program: a folder with a table, a schedule and what is printed for them.

use std::collections::BTreeMap;
use std::path::{Path, PathBuf};
use std::{fs, io};

/// One of the two files that the listing program reads.
pub enum File {
    /// It is not there.
    Absent,
    /// It has these bytes.
    Bytes(Vec<u8>),
    /// A folder stands in its place, which cannot be read as a file.
    Folder,
}

impl<T: Into<Vec<u8>>> From<T> for File {
    fn from(bytes: T) -> Self {
        Self::Bytes(bytes.into())
    }
}

/// A case.
pub struct Case {
    name: &'static str,
    table: File,
    schedule: File,
    expected: String,
}

impl Case {
    /// The case of this name: its files, and the lines that are expected of them.
    pub fn new<'a>(
        name: &'static str,
        table: impl Into<File>,
        schedule: impl Into<File>,
        expected: impl IntoIterator<Item = &'a str>,
    ) -> Self {
        let lines = expected.into_iter().map(|line| format!("{line}\n"));
        Self {
            name,
            table: table.into(),
            schedule: schedule.into(),
            expected: lines.collect(),
        }
    }

    /// Its files by path, from the folder of all cases.
    fn files(&self) -> Vec<(PathBuf, Vec<u8>)> {
        let folder = Path::new(self.name);
        let mut files = vec![(folder.join("expected"), self.expected.clone().into_bytes())];
        for (name, file) in [("site.tab", &self.table), ("order.sch", &self.schedule)] {
            match file {
                File::Absent => {}
                File::Bytes(bytes) => files.push((folder.join(name), bytes.clone())),
                // A folder is kept where it has a file.
                File::Folder => files.push((folder.join(name).join("kept"), Vec::new())),
            }
        }
        files
    }
}

/// The files of all cases, by path.
pub fn files(cases: &[Case]) -> BTreeMap<PathBuf, Vec<u8>> {
    let files: Vec<(PathBuf, Vec<u8>)> = cases.iter().flat_map(Case::files).collect();
    let by_path: BTreeMap<PathBuf, Vec<u8>> = files.iter().cloned().collect();
    assert_eq!(by_path.len(), files.len(), "two cases of one name");
    by_path
}

/// Writes the cases into `root`, each folder anew.
pub fn write(root: &Path, cases: &[Case]) -> io::Result<()> {
    for case in cases {
        let folder = root.join(case.name);
        if folder.exists() {
            fs::remove_dir_all(folder)?;
        }
    }
    for (path, bytes) in files(cases) {
        let path = root.join(path);
        fs::create_dir_all(path.parent().expect("a folder"))?;
        fs::write(path, bytes)?;
    }
    Ok(())
}
