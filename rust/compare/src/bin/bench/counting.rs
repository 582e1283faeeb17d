//! Instructions per call, by callgrind. The program `count` makes every measurement once.

use crate::timing::Row;
use std::path::Path;
use std::process::Command;
use std::{env, fs};

/// Instructions per call of both engines, row by row.
pub struct Counts(Vec<(f64, f64)>);

impl Counts {
    /// Counts for these rows, or why there are none.
    pub fn of(rows: &[Row]) -> Result<Self, String> {
        let program = env::current_exe().map_err(|error| error.to_string())?;
        let folder = env::temp_dir().join(format!("order-count-{}", std::process::id()));
        fs::create_dir_all(&folder).map_err(|error| error.to_string())?;
        let counts = counted(&program.with_file_name("count"), &folder, rows);
        // What is left there is of no more use.
        let _ = fs::remove_dir_all(&folder);
        counts
    }

    /// Row by row: instructions per call of the engine and of the reference.
    pub fn rows(&self) -> impl Iterator<Item = (f64, f64)> {
        self.0.iter().copied()
    }

    /// Prints them as a table.
    pub fn print(&self, rows: &[Row]) {
        println!("\ninstructions per call");
        for (row, (engine, reference)) in rows.iter().zip(self.rows()) {
            println!(
                "{:<23}{:<14}{engine:>10.0}{reference:>11.0}{:>8.2}",
                row.call,
                row.load,
                engine / reference
            );
        }
    }
}

/// Has the C library clear memory by stores, not by one instruction that repeats: callgrind counts
/// that one once for each byte.
const CLEAR_BY_STORES: (&str, &str) = (
    "GLIBC_TUNABLES",
    "glibc.cpu.x86_rep_stosb_threshold=1000000",
);

/// Two dumps for each engine's part of a row: what came before it, and the part.
fn counted(program: &Path, folder: &Path, rows: &[Row]) -> Result<Counts, String> {
    let output = Command::new("valgrind")
        .args(["--tool=callgrind", "--quiet", "--dump-after=*measured_*"])
        .arg("--callgrind-out-file=out")
        .arg(program)
        .current_dir(folder)
        .env(CLEAR_BY_STORES.0, CLEAR_BY_STORES.1)
        .output()
        .map_err(|error| format!("valgrind: {error}"))?;
    if !output.status.success() {
        return Err(String::from_utf8_lossy(&output.stderr).into_owned());
    }
    let part = |number: usize, inputs: usize| -> Result<f64, String> {
        let total = total(&folder.join(format!("out.{number}")))?;
        Ok(total as f64 / inputs as f64)
    };
    let mut counts = Vec::new();
    for (index, row) in rows.iter().enumerate() {
        let engine = part(4 * index + 2, row.inputs)?;
        counts.push((engine, part(4 * index + 4, row.inputs)?));
    }
    Ok(Counts(counts))
}

/// The instructions of one dump.
fn total(dump: &Path) -> Result<u64, String> {
    let text = fs::read_to_string(dump).map_err(|error| format!("a dump is missing: {error}"))?;
    let total = text.lines().find_map(|line| line.strip_prefix("totals: "));
    let total = total.and_then(|total| total.trim().parse().ok());
    total.ok_or_else(|| "a dump has no total".to_string())
}
