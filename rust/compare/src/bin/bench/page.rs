//! The benchmark's page: its figures are written anew, its other words stay.

use crate::counting::Counts;
use crate::timing::Row;
use std::fmt::Write;
use std::{fs, io};

/// The lines between which the figures stand.
const BEGIN: &str = "<!-- figures: written by `make bench` -->";
const END: &str = "<!-- end of figures -->";

/// Writes the figures into a page that has the two lines.
pub fn write(path: &str, rows: &[Row], counts: Option<&Counts>) -> io::Result<()> {
    let page = fs::read_to_string(path)?;
    let parts = page
        .split_once(BEGIN)
        .and_then(|(head, rest)| Some((head, rest.split_once(END)?.1)));
    let Some((head, tail)) = parts else {
        return Err(io::Error::other("the lines around the figures are missing"));
    };
    let figures = figures(rows, counts);
    fs::write(path, format!("{head}{BEGIN}\n\n{figures}\n{END}{tail}"))
}

fn figures(rows: &[Row], counts: Option<&Counts>) -> String {
    let mut text = format!("Processor: {}.\n\n", processor());
    text += "| Call | Table | Engine, ns | Reference, ns | Ratio | Engine, instructions | Reference, instructions | Ratio |\n";
    text += "|---|---|--:|--:|--:|--:|--:|--:|\n";
    let counts: Vec<Option<(f64, f64)>> = match counts {
        Some(counts) => counts.rows().map(Some).collect(),
        None => vec![None; rows.len()],
    };
    for (row, counts) in rows.iter().zip(counts) {
        let Row {
            call,
            load,
            engine,
            reference,
            ratio,
            ..
        } = row;
        let _ = write!(
            text,
            "| {call} | {load} | {engine:.0} | {reference:.0} | {ratio:.2} |"
        );
        let _ = match counts {
            Some((ours, theirs)) => {
                writeln!(text, " {ours:.0} | {theirs:.0} | {:.2} |", ours / theirs)
            }
            None => writeln!(text, " | | |"),
        };
    }
    text
}

/// The processor's kind.
fn processor() -> String {
    let info = fs::read_to_string("/proc/cpuinfo").unwrap_or_default();
    let model = info.lines().find(|line| line.starts_with("model name"));
    let model = model.and_then(|line| line.split_once(": "));
    model.map_or("unknown", |(_, name)| name).to_string()
}
