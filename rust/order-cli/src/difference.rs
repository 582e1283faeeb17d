//! How two accepted schedules differ that are not the same run.

use crate::names::names;
use crate::rule::rule;
use crate::table::Table;
use crate::words::{count, joined, step};
use order_engine::{PairVerdict, Same, StepName, pair};
use std::fmt::Write;

/// Which of the dependent pairs that run in opposite orders are named.
#[derive(Clone, Copy, PartialEq, Eq, Debug)]
pub enum Pairs {
    /// The one that ended the engine's search; of the others, how many they are.
    First,
    /// All of them.
    All,
}

/// How the two differ, in words, where this is the engine's answer about them.
pub fn difference(
    table: &Table,
    first: &[u8],
    second: &[u8],
    answer: &Same,
    pairs: Pairs,
) -> String {
    let [one, other] = [first, second].map(|schedule| names(&table.bytes, schedule));
    let mut text = String::new();
    if one.len() != other.len() {
        let first = count(one.len(), "entry", "entries");
        let _ = writeln!(text, "The first has {first}, the second {}.", other.len());
    }
    text += &alone(table, "first", &one, &other);
    text += &alone(table, "second", &other, &one);
    text + &opposed(table, &one, &other, answer, pairs)
}

/// The steps that only one of the two runs, a line for each actor.
fn alone(table: &Table, which: &str, own: &[StepName], other: &[StepName]) -> String {
    let mut alone: Vec<StepName> = own.to_vec();
    alone.retain(|name| !other.contains(name));
    alone.sort();
    let mut text = String::new();
    for steps in alone.chunk_by(|one, next| one.actor == next.actor) {
        let steps = match steps {
            [name] => step(&table.layout, *name),
            [name, ..] => {
                let (all, actor) = (joined(steps), name.actor);
                format!("{all} ({} steps of actor {actor})", steps.len())
            }
            [] => continue,
        };
        let _ = writeln!(text, "Only the {which} runs {steps}.");
    }
    text
}

/// The dependent pairs that the two run in opposite orders, and why they are dependent: the one that ended
/// the engine's search, then those after it. Of schedules with other steps, of which the engine compares no
/// pair, those of the steps that both run.
fn opposed(
    table: &Table,
    first: &[StepName],
    second: &[StepName],
    answer: &Same,
    pairs: Pairs,
) -> String {
    let mut others = reversed(table, first, second, answer.pairs as usize);
    let Some((i, j)) = answer.entries().or_else(|| others.next()) else {
        return String::new();
    };
    let (earlier, later) = (first[i], first[j]);
    let [k, l] = [earlier, later].map(|name| place(second, name).unwrap_or_default());
    let (both, rule) = dependent(table, earlier, later);
    let text = format!(
        "{both} run in opposite orders (entries count from 0):\n\
        \x20 first schedule: entry {i} is {earlier}, entry {j} is {later}\n\
        \x20 second schedule: entry {l} is {later}, entry {k} is {earlier}\n\
        They are dependent, {rule}.\n"
    );
    let others = others.map(|(i, j)| dependent(table, first[i], first[j]));
    text + &more(&others.collect::<Vec<_>>(), pairs)
}

/// Two dependent steps in words, and why they are dependent.
fn dependent(table: &Table, one: StepName, other: StepName) -> (String, String) {
    let layout = &table.layout;
    let both = format!("{} and {}", step(layout, one), step(layout, other));
    (both, rule(layout, one, other).unwrap_or_default())
}

/// What is said of the dependent pairs after the first.
fn more(others: &[(String, String)], pairs: Pairs) -> String {
    if others.is_empty() {
        return String::new();
    }
    let (one, several) = ("more dependent pair runs", "more dependent pairs run");
    let text = format!(
        "and {} in opposite orders",
        count(others.len(), one, several)
    );
    match pairs {
        Pairs::First => text + "\n",
        Pairs::All => {
            let others = others.iter();
            let lines = others.map(|(both, rule)| format!("  {both}, {rule}\n"));
            text + ":\n" + &lines.collect::<String>()
        }
    }
}

/// The pairs of entries of the first schedule that are dependent and that the second schedule runs in
/// the opposite order: first the one whose later entry comes first, and then whose earlier one does. So many
/// pairs have been compared already.
fn reversed(
    table: &Table,
    first: &[StepName],
    second: &[StepName],
    compared: usize,
) -> impl Iterator<Item = (usize, usize)> {
    let pairs = (0..first.len()).flat_map(|j| (0..j).map(move |i| (i, j)));
    let opposite = pairs.skip(compared).filter(|&(i, j)| {
        match (place(second, first[i]), place(second, first[j])) {
            (Some(earlier), Some(later)) => later < earlier,
            _ => false,
        }
    });
    opposite.filter(|&(i, j)| pair(&table.bytes, first[i], first[j]) == Ok(PairVerdict::Dependent))
}

fn place(names: &[StepName], name: StepName) -> Option<usize> {
    names.iter().position(|&one| one == name)
}
