//! What `include/order.h` says by name, against this crate.

use order_engine::{PAGE_ROOM, REPORT_ROOM, Reason, SCHEDULE_MOST};
use std::collections::BTreeMap;
use tables::layout::{LONGEST, MOST, MOST_ACTIONS};

const HEADER: &str = include_str!("../../../include/order.h");

/// Every name that the header gives a number.
fn numbers() -> BTreeMap<&'static str, u32> {
    let lines = HEADER.lines().map(str::trim);
    let enumerators = lines.clone().filter_map(|line| line.split_once(" = "));
    let defines = lines.filter_map(|line| line.strip_prefix("#define ")?.split_once(' '));
    let numbers = enumerators.chain(defines).filter_map(|(name, rest)| {
        let number = rest.split([',', ' ']).next()?;
        Some((name, number.parse().ok()?))
    });
    numbers.collect()
}

/// `ShortTable` as C writes it: `SHORT_TABLE`.
fn upper(name: &str) -> String {
    let mut upper = String::new();
    for letter in name.chars() {
        if letter.is_uppercase() && !upper.is_empty() {
            upper.push('_');
        }
        upper.push(letter.to_ascii_uppercase());
    }
    upper
}

#[test]
fn the_refusals() {
    let numbers = numbers();
    let of_header = numbers.iter().filter_map(|(name, &number)| {
        let name = name.strip_prefix("ORDER_REFUSED_")?;
        Some((name.to_owned(), number))
    });
    let reasons = Reason::ALL.iter();
    let of_crate = reasons.map(|reason| (upper(&format!("{reason:?}")), reason.number()));
    let of_crate: BTreeMap<String, u32> = of_crate.collect();
    assert_eq!(of_header.collect::<BTreeMap<_, _>>(), of_crate);
}

#[test]
fn the_rest() {
    let mut numbers = numbers();
    numbers.retain(|name, _| !name.starts_with("ORDER_REFUSED_"));
    let wanted = [
        ("ORDER_ACCEPTED", 0),
        ("ORDER_REPORT_ROOM", REPORT_ROOM as u32),
        ("ORDER_PAGE_ROOM", PAGE_ROOM as u32),
        ("ORDER_TABLE_MOST", LONGEST as u32),
        ("ORDER_SCHEDULE_MOST", SCHEDULE_MOST as u32),
        ("ORDER_FINISHED", 0),
        ("ORDER_STUCK", 1),
        ("ORDER_GOING", 2),
        ("ORDER_INDEPENDENT", 0),
        ("ORDER_DEPENDENT", 1),
        ("ORDER_DIFFERENT", 0),
        ("ORDER_SAME", 1),
        ("ORDER_FIRST", 1),
        ("ORDER_SECOND", 2),
    ];
    assert_eq!(numbers, BTreeMap::from(wanted));
    assert_eq!(SCHEDULE_MOST, usize::from(MOST) * MOST_ACTIONS);
}
