//! The listings that `tests/turns` and `examples` expect of the listing program, against those that
//! follow from the reference; and what the example's text says of its three orders.

mod common;

use common::{different_after, same_after};
use reference::follow::{Schedule, follow};
use reference::site::Site;
use reference::{Ending, Ready, Refusal, check, same};
use std::fmt::Write;
use std::fs;
use std::path::{Path, PathBuf};

fn repository() -> PathBuf {
    Path::new(env!("CARGO_MANIFEST_DIR")).join("../..")
}

/// An absent file reads as empty.
fn read(path: &Path) -> Vec<u8> {
    if path.exists() {
        fs::read(path).expect("a file")
    } else {
        Vec::new()
    }
}

fn lines(table: &[u8], schedule: &[u8]) -> Result<String, Refusal> {
    let table = check(table)?;
    let mut site = Site::fresh();
    let mut text = String::new();
    follow(&table, Schedule::First, schedule, &mut site, |name, _| {
        writeln!(text, "{} {}", name.actor(), name.action()).expect("room");
    })?;
    let ending = match Ready::of(&table, &site).ending {
        Ending::Finished => "finished",
        Ending::Stuck => "stuck",
        Ending::Going => "going",
    };
    writeln!(text, "end {ending}").expect("room");
    Ok(text)
}

fn listing(table: &[u8], schedule: &[u8]) -> String {
    lines(table, schedule).unwrap_or_else(|refusal| {
        format!(
            "refused {} at {}\n",
            refusal.reason as u32, refusal.position
        )
    })
}

/// Every folder below `folder` has the listing that it expects; how many there are. A folder in the
/// place of a file cannot be read, and then nothing is expected.
fn compare(folder: &str) -> usize {
    let mut count = 0;
    for entry in fs::read_dir(repository().join(folder)).expect("a folder") {
        let case = entry.expect("an entry").path();
        if !case.is_dir() {
            continue;
        }
        let (table, schedule) = (case.join("site.tab"), case.join("order.sch"));
        let expected = fs::read_to_string(case.join("expected")).expect("a text");
        let found = if table.is_dir() || schedule.is_dir() {
            String::new()
        } else {
            listing(&read(&table), &read(&schedule))
        };
        assert_eq!(found, expected, "{}", case.display());
        count += 1;
    }
    count
}

#[test]
fn the_cases() {
    assert!(compare("tests/turns") >= 13);
}

#[test]
fn the_forecourt() {
    assert_eq!(compare("examples/forecourt"), 3);
    let folder = repository().join("examples/forecourt");
    let file = |order: &str, name: &str| read(&folder.join(order).join(name));
    let table = file("loyalty-first", "site.tab");
    let orders = ["loyalty-first", "fleet-first", "another-order"];
    let [first, second, third] = orders.map(|order| file(order, "order.sch"));
    for order in orders {
        assert_eq!(file(order, "site.tab"), table);
    }
    let price = |schedule: &[u8]| {
        let table = check(&table).expect("a table");
        let mut site = Site::fresh();
        follow(&table, Schedule::First, schedule, &mut site, |_, _| {}).expect("accepted");
        site.actor(2).cells[0]
    };
    assert_eq!([&first, &second, &third].map(|s| price(s)), [145, 139, 145]);
    assert_eq!(same(&table, &first, &second), different_after(5));
    assert_eq!(same(&table, &first, &third), same_after(15));
}
