//! The bytes that `docs/FORMAT.md` shows: table A and its report, line by line, and its page.

use order_engine::{PAGE_ROOM, REPORT_ROOM, page, run};
use std::fs;
use std::path::{Path, PathBuf};
use tables::TABLE_A;

fn example(name: &str) -> PathBuf {
    let folder = Path::new(env!("CARGO_MANIFEST_DIR")).join("../../examples/table-a");
    folder.join(name)
}

/// The bytes of an annotated file. Each line has hexadecimal numbers, bare or for `printf`, then `#` and
/// the offset of the first of them.
fn annotated(name: &str) -> Vec<u8> {
    let text = fs::read_to_string(example(name)).expect("a text");
    let mut bytes = Vec::new();
    for line in text.lines() {
        let (numbers, remark) = line.split_once('#').unwrap_or((line, ""));
        if numbers.trim().is_empty() {
            continue;
        }
        let offset = remark.split_whitespace().next();
        assert_eq!(offset, Some(bytes.len().to_string().as_str()), "{line}");
        let numbers = numbers
            .replace("printf", "")
            .replace(['\'', '\\', 'x'], " ");
        let numbers = numbers.split_whitespace();
        bytes.extend(numbers.map(|number| u8::from_str_radix(number, 16).expect("hexadecimal")));
    }
    bytes
}

#[test]
fn the_table() {
    assert_eq!(fs::read(example("site.tab")).expect("a table"), TABLE_A);
    assert_eq!(annotated("by-hand"), TABLE_A);
}

#[test]
fn the_report() {
    let mut buffer = [0xa5; REPORT_ROOM];
    let report = run(&TABLE_A, &[0, 1, 0, 1], &mut buffer).expect("accepted");
    assert_eq!(annotated("report.hex"), report.bytes());
}

#[test]
fn the_page() {
    let shown = include_str!("../../../tests/order/page-table-a/stdout");
    let mut buffer = [0xa5; PAGE_ROOM];
    assert_eq!(page(&TABLE_A, &[0, 1, 0, 1], &mut buffer), Ok(shown));
}
