//! From a text to a table.

use super::actions::action;
use super::line::Line;
use super::number::Number;
use super::place::{Mistake, Place};
use crate::layout::Layout;

/// The most actions of an actor that a directory's entry can count.
const COUNTED: usize = u16::MAX as usize;

/// A table built from a text, and where in the text its parts stand.
#[derive(Clone, PartialEq, Eq, Debug)]
pub struct Built {
    /// The table.
    pub layout: Layout,
    /// Where the numbers of actors, mailboxes and mutexes stand.
    pub counts: [Place; 3],
    /// Where each actor begins.
    pub actors: Vec<Place>,
    /// Where each actor's actions stand: the words of their kinds.
    pub actions: Vec<Vec<Place>>,
}

/// Builds the table that `text` describes.
pub fn build(text: &str) -> Result<Built, Mistake> {
    let numbered = text.lines().zip(1..);
    let all = numbered.map(|(line, number)| Line::of(number, line));
    let mut lines = all.filter(|line| !line.is_empty());
    let end = Place::end_of(text);
    let mut count = |word, what| count(lines.next(), word, Number::of(what), end);
    let (actors, first) = count("actors", "the number of actors")?;
    let (mailboxes, second) = count("mailboxes", "the number of mailboxes")?;
    let (mutexes, third) = count("mutexes", "the number of mutexes")?;
    let mut built = Built {
        layout: Layout::new(mailboxes, mutexes, &[]),
        counts: [first, second, third],
        actors: Vec::new(),
        actions: Vec::new(),
    };
    for line in lines {
        built.take(line, actors)?;
    }
    match built.actors.len() {
        found if found == usize::from(actors) => Ok(built),
        found => Err(Mistake::new(
            end,
            format!("expected `actor {found}`, the text ends here (`actors` says {actors})"),
        )),
    }
}

/// Reads a line that is `word` and a number, and where the number stands.
fn count(
    line: Option<Line>,
    word: &str,
    number: Number<u8>,
    end: Place,
) -> Result<(u8, Place), Mistake> {
    let Some(mut line) = line else {
        let words = format!("expected `{word}` and a number, the text ends here");
        return Err(Mistake::new(end, words));
    };
    line.expect(word)?;
    let place = line.place();
    let number = line.number(number)?;
    line.finish()?;
    Ok((number, place))
}

impl Built {
    /// Adds what a line after the counts says: an actor's beginning, or an action of the last one.
    fn take(&mut self, mut line: Line, actors: u8) -> Result<(), Mistake> {
        let place = line.place();
        if line.pass("actor") {
            self.begin(line, actors)?;
            self.actors.push(place);
            self.actions.push(Vec::new());
            self.layout.scripts.push(Vec::new());
            return Ok(());
        }
        let (Some(script), Some(places)) =
            (self.layout.scripts.last_mut(), self.actions.last_mut())
        else {
            return Err(line.expected("`actor 0`"));
        };
        let own = script.len();
        if own == COUNTED {
            let words = format!("an actor has at most {COUNTED} actions, this is one more");
            return Err(line.mistake(words));
        }
        numbered(&mut line, own)?;
        places.push(line.place());
        script.push(action(&mut line)?);
        Ok(())
    }

    /// Reads the number after `actor`, which has to be that of the next one.
    fn begin(&self, mut line: Line, actors: u8) -> Result<(), Mistake> {
        let next = self.actors.len();
        if next == usize::from(actors) {
            return Err(line.mistake(format!("one actor too many: `actors` says {actors}")));
        }
        in_turn(&mut line, next, "the actor's number")?;
        line.finish()
    }
}

/// Passes an action's number and colon, where the line has them.
fn numbered(line: &mut Line, own: usize) -> Result<(), Mistake> {
    let begins = |word: &str| word.starts_with(|c: char| c.is_ascii_digit());
    if line.peek().is_some_and(begins) {
        in_turn(line, own, "the action's number")?;
        line.expect(":")?;
    }
    Ok(())
}

/// Passes a number that has to be `own`; `what` says what it is.
fn in_turn(line: &mut Line, own: usize, what: &'static str) -> Result<(), Mistake> {
    let other = line.expected(&format!("{what} in turn, {own}"));
    let number = line.number(Number::<u64>::of(what))?;
    match usize::try_from(number) {
        Ok(number) if number == own => Ok(()),
        _ => Err(other),
    }
}
