//! What accepted pages must have shown: every number of actors, every status, positions, and cells of
//! every number of digits.

use crate::harness::demands::Demands;
use crate::harness::tally::Tally;
use crate::inputs::digits::{MOST_DIGITS, ends};
use reference::Status;
use std::fmt;
use tables::layout::MOST;

/// Something that a page can show.
#[derive(Clone, Copy)]
enum Sight {
    /// So many lines.
    Actors(u8),
    /// An actor with this status.
    Status(&'static str),
    /// An actor at this position.
    Position(u32),
    /// A cell of so many digits.
    Digits(u32),
    /// A cell that holds this number.
    Cell(u32),
}

/// A line of a page, without its actor.
struct Line<'a> {
    position: u32,
    status: &'a str,
    cells: Vec<u32>,
}

impl<'a> Line<'a> {
    fn of(text: &'a str) -> Self {
        let words: Vec<&str> = text.split_whitespace().collect();
        let number = |word: &str| word.parse().expect("a number");
        Self {
            position: number(words[1]),
            status: words[2],
            cells: words[3..].iter().copied().map(number).collect(),
        }
    }
}

impl Sight {
    /// All that must have been shown.
    fn all() -> impl Iterator<Item = Self> {
        let actors = (1..=MOST).map(Self::Actors);
        let statuses = Status::ALL.map(|status| Self::Status(status.word()));
        let positions = [0, 9, 10, 31, 32].map(Self::Position);
        let digits = (1..=MOST_DIGITS).map(Self::Digits);
        let cells = (1..=MOST_DIGITS).flat_map(ends).map(Self::Cell);
        let columns = statuses.into_iter().chain(positions);
        actors.chain(columns).chain(digits).chain(cells)
    }

    /// Whether a page with these lines shows it.
    fn shown(self, page: &[Line]) -> bool {
        let mut cells = page.iter().flat_map(|line| &line.cells);
        match self {
            Self::Actors(count) => page.len() == usize::from(count),
            Self::Status(word) => page.iter().any(|line| line.status == word),
            Self::Position(position) => page.iter().any(|line| line.position == position),
            Self::Digits(digits) => {
                let [least, greatest] = ends(digits);
                cells.any(|cell| (least..=greatest).contains(cell))
            }
            Self::Cell(number) => cells.any(|&cell| cell == number),
        }
    }
}

impl fmt::Display for Sight {
    fn fmt(&self, f: &mut fmt::Formatter<'_>) -> fmt::Result {
        match self {
            Self::Actors(count) => write!(f, "actors: {count}"),
            Self::Status(word) => write!(f, "status: {word}"),
            Self::Position(position) => write!(f, "position: {position:>2}"),
            Self::Digits(digits) => write!(f, "digits of a cell: {digits:>2}"),
            Self::Cell(number) => write!(f, "cell: {number:>10}"),
        }
    }
}

/// What must have been met, and how often.
pub fn demands(demands: Demands) -> Demands {
    let all: Vec<String> = Sight::all().map(|sight| sight.to_string()).collect();
    demands.notes(&all, 1_000)
}

/// Notes what an accepted page shows, each once.
pub fn note(tally: &mut Tally, page: &[u8]) {
    let page = str::from_utf8(page).expect("a page is a text");
    let lines: Vec<Line> = page.lines().map(Line::of).collect();
    for sight in Sight::all().filter(|sight| sight.shown(&lines)) {
        tally.note(&sight.to_string());
    }
}
