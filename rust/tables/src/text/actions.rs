//! One action's line: its words after the number, by what its kind says of its bytes.

use super::line::Line;
use super::number::{ACTION, CELL, MAILBOX, MUTEX, Number, VALUE};
use super::place::Mistake;
use crate::action::{self, Action, LONGEST_LIST};
use crate::kind::{Field, Kind, Rest};

/// Reads an action, and that the line ends with it.
pub(super) fn action(line: &mut Line) -> Result<Action, Mistake> {
    let kind = kind(line)?;
    let p = line.number(first(kind.field()))?;
    let action = match kind.rest() {
        Rest::Nothing => action::lone(kind, p),
        Rest::Value => action::valued(kind, p, line.number(VALUE)?),
        Rest::Cell => action::two(kind, p, line.number(CELL)?),
        Rest::Communications => action::listing(kind, p, &list(line, ACTION)?),
        Rest::Mutexes => action::listing(kind, p, &list(line, MUTEX)?),
    };
    line.finish()?;
    Ok(action)
}

/// What p is.
fn first(field: Field) -> Number<u8> {
    match field {
        Field::Cell => CELL,
        Field::Mailbox => MAILBOX,
        Field::Mutex => MUTEX,
    }
}

fn kind(line: &mut Line) -> Result<Kind, Mistake> {
    let known = Kind::ALL.into_iter().find(|kind| line.pass(kind.word()));
    known.ok_or_else(|| {
        let words = Kind::ALL.map(Kind::word).join(", ");
        line.expected(&format!("a kind of action ({words})"))
    })
}

/// Reads a list of 1 to [`LONGEST_LIST`] numbers in brackets.
fn list(line: &mut Line, number: Number<u8>) -> Result<Vec<u8>, Mistake> {
    line.expect("[")?;
    if line.peek() == Some("]") {
        return Err(line.expected(&format!("1 to {LONGEST_LIST} numbers in the list")));
    }
    let numbers = line.numbers(number, Some("]"))?;
    if let Some(&(place, _)) = numbers.get(LONGEST_LIST) {
        let words = format!("a list has at most {LONGEST_LIST} numbers, this is one more");
        return Err(Mistake::new(place, words));
    }
    line.expect("]")?;
    Ok(numbers.into_iter().map(|(_, number)| number).collect())
}
