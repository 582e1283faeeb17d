//! Whether arguments seem exchanged: what was given as something else is a table.

use super::Asked;
use crate::source::Source;
use order_engine::{Reason, check};

/// Words for a file that is a table and was given as something else.
pub fn exchanged(file: &Source) -> Option<String> {
    let is_table = file.is_file() && check(file).is_ok();
    is_table.then(|| {
        let (name, role) = (file.name(), file.role());
        format!("the arguments seem exchanged: {name}, given as {role}, is a table")
    })
}

/// A line for it, where the table is refused.
pub(super) fn words(reason: Reason, asked: &Asked) -> String {
    let schedules = [asked.first, asked.second].into_iter().flatten();
    let is_of_table = reason <= Reason::Unused;
    let mut found = schedules.filter(|_| is_of_table).filter_map(exchanged);
    let words = found.next();
    words.map_or_else(String::new, |words| format!("{words}\n"))
}
