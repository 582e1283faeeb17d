//! `order build`: a table from a text.

use crate::answer::{Answer, Failure};
use crate::command::{Command, Example};
use crate::given::Given;
use crate::operand::{Operand, Sort};
use crate::refusals::{Asked, exchanged, place, pointed};
use crate::shown::shown;
use crate::source::Source;
use crate::table::Table;
use tables::text::{Built, build, decode};

/// The bytes of the longest text that is taken, a hundred times what the largest table wants.
const LONGEST_TEXT: usize = 1 << 20;

const TEXT: Operand = Operand {
    name: "TEXT",
    what: "the file of a text, as `order show` prints it; # begins a comment",
    role: "the text",
    sort: Sort::Source,
};

const TARGET: Operand = Operand {
    name: "TABLE",
    what: "the file that the table is written to",
    role: "the table",
    sort: Sort::Target,
};

/// The sub-command.
pub static COMMAND: Command = Command {
    name: "build",
    summary: "a table from a text",
    about: "\
Builds a task table from a text and writes it, if the engine accepts it. A mistake in the text is
named with its line and column, and so is what the engine refuses; nothing is written then.",
    operands: &[TEXT, TARGET],
    options: &[],
    example: Example {
        line: "order build site.txt site.tab",
        output: "\
wrote site.tab: 64 bytes, 3 actors, 1 mailbox, 0 mutexes
actor 0: 2 actions
actor 1: 2 actions
actor 2: 2 actions
",
    },
    run,
};

fn run(given: &Given) -> Result<Answer, Failure> {
    let text = Source::of_file(&TEXT, given.path(&TEXT), LONGEST_TEXT + 1)?;
    let target = given.path(&TARGET);
    let built = built(&text, target.exists())?;
    let table = accepted(&text, &built)?;
    let words = format!("wrote {}: {}", shown(target), table.summary());
    Answer::of(words).with_file(target, &table.bytes)
}

/// What the text describes.
fn built(text: &Source, is_target_there: bool) -> Result<Built, Failure> {
    let name = text.name();
    if text.len() > LONGEST_TEXT {
        let length = text.length();
        return Err(Failure::Trouble(format!(
            "{name}: a text has at most {LONGEST_TEXT} bytes, the file has {length}\n"
        )));
    }
    decode(text).and_then(build).map_err(|mistake| {
        let hint = match exchanged(text) {
            Some(words) if is_target_there => words + "\n",
            Some(_) => "this is a table: order show makes a text of it\n".to_owned(),
            None => String::new(),
        };
        Failure::Trouble(format!("{name}:{mistake}\n{hint}"))
    })
}

/// The table, if the engine accepts it; a refusal with the place in the text that it points at.
fn accepted(text: &Source, built: &Built) -> Result<Table, Failure> {
    let table = Source::of_bytes(&TARGET, text.name(), built.layout.bytes());
    Table::of(&table).map_err(|refusal| {
        let place = place(refusal, built);
        let place = place.map_or_else(String::new, |place| format!("{place}:"));
        let (number, sentence) = (refusal.number(), refusal.sentence());
        let words = pointed(refusal, &Asked::of(&table));
        let name = text.name();
        Failure::Refused(format!(
            "{name}:{place} refused {number}: {sentence}\n{words}"
        ))
    })
}
