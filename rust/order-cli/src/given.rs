//! What was given to a sub-command: each operand that it declares once, and some of its options.

use crate::answer::Failure;
use crate::arguments::{Arguments, TEXT, Word, wrong};
use crate::files::are_one;
use crate::operand::{Choice, Operand, Sort};
use crate::refusals::exchanged;
use crate::shown::shown;
use crate::source::{ENOUGH, Source};
use order_engine::StepName;
use std::ffi::OsStr;
use std::fs::{self, Metadata};
use std::io;
use std::path::Path;
use tables::text::{ACTION, ACTOR, Number, quoted};

/// The seed of a drawn schedule.
const SEED: Number<u32> = Number::of("a seed");

/// Operands and options.
#[derive(Clone, Debug, Default)]
pub struct Given<'a> {
    operands: Vec<(&'static Operand, Word<'a>)>,
    options: Vec<(&'static Choice, Option<&'a OsStr>)>,
}

impl<'a> Given<'a> {
    /// What these arguments give to a sub-command with these operands.
    pub fn of(operands: &'static [Operand], arguments: &Arguments<'a>) -> Result<Self, Failure> {
        let mut given = Self::default();
        for &word in &arguments.operands {
            given.add(operands, word)?;
        }
        for &(choice, value) in &arguments.options {
            given.choose(choice, value)?;
        }
        if let Some(missing) = operands.get(given.operands.len()) {
            return wrong(format!("{} is missing", missing.name));
        }
        given.keep_apart()?;
        Ok(given)
    }

    /// Adds an operand, the next of these.
    fn add(&mut self, operands: &'static [Operand], word: Word<'a>) -> Result<(), Failure> {
        match (operands.get(self.operands.len()), word) {
            (Some(operand), Word::Text(_)) if operand.sort != Sort::Schedule => wrong(format!(
                "{TEXT} gives a schedule, and {} is not one",
                operand.name
            )),
            (Some(operand), _) => {
                self.operands.push((operand, word));
                Ok(())
            }
            (None, Word::Plain(word) | Word::Text(word)) => {
                wrong(format!("`{}` is one argument too many", shown(word)))
            }
        }
    }

    /// Adds an option, with its value where it has one.
    fn choose(&mut self, choice: &'static Choice, value: Option<&'a OsStr>) -> Result<(), Failure> {
        if self.has(choice) {
            return wrong(format!("{} is given twice", choice.name));
        }
        self.options.push((choice, value));
        Ok(())
    }

    /// No file that is written may be one that is read, or one that the words go to.
    fn keep_apart(&self) -> Result<(), Failure> {
        for (target, path) in self.targets() {
            let Ok(found) = fs::metadata(path) else {
                continue;
            };
            let sources = self.sources();
            let sources = sources.map(|(name, source)| (name, fs::metadata(source)));
            let mut others = sources.chain(outputs());
            let is_target = |other: &io::Result<Metadata>| {
                let other = other.as_ref();
                other.is_ok_and(|other| are_one(&found, other))
            };
            if let Some((other, _)) = others.find(|(_, other)| is_target(other)) {
                let path = shown(path);
                return wrong(format!(
                    "{target} and {other} are one file, `{path}`: writing it would destroy what it holds"
                ));
            }
        }
        Ok(())
    }

    /// The files that are read, each with what stands for it in the usage.
    fn sources(&self) -> impl Iterator<Item = (&'static str, &'a Path)> {
        let operands = self.operands.iter();
        operands.filter_map(|&(operand, word)| match (operand.sort, word) {
            (Sort::Source | Sort::Schedule, Word::Plain(path)) => {
                Some((operand.name, Path::new(path)))
            }
            (_, Word::Text(_)) | (Sort::Step | Sort::Seed | Sort::Target, _) => None,
        })
    }

    /// The files that are written, likewise.
    fn targets(&self) -> impl Iterator<Item = (String, &'a Path)> {
        let operands = self.operands.iter();
        let named = operands.filter_map(|&(operand, word)| match (operand.sort, word) {
            (Sort::Target, Word::Plain(path) | Word::Text(path)) => {
                Some((operand.name.to_owned(), Path::new(path)))
            }
            (Sort::Source | Sort::Schedule | Sort::Step | Sort::Seed, _) => None,
        });
        let options = self.options.iter();
        let chosen = options
            .filter_map(|(choice, value)| value.map(|path| (choice.usage(), Path::new(path))));
        named.chain(chosen)
    }

    /// The operand, which the sub-command declares.
    fn word(&self, name: &str) -> Word<'a> {
        let mut operands = self.operands.iter();
        match operands.find(|(operand, _)| operand.name == name) {
            Some(&(_, word)) => word,
            None => unreachable!("no operand is called {name}"),
        }
    }

    /// The operand as it stands.
    fn plain(&self, operand: &Operand) -> &'a OsStr {
        let (Word::Plain(word) | Word::Text(word)) = self.word(operand.name);
        word
    }

    /// The operand as a path.
    pub fn path(&self, operand: &Operand) -> &'a Path {
        Path::new(self.plain(operand))
    }

    /// The file that the operand names, as far as an answer needs it.
    pub fn file(&self, operand: &Operand) -> Result<Source, Failure> {
        Source::of_file(operand, self.path(operand), ENOUGH)
    }

    /// The schedule that the operand names or is.
    pub fn schedule(&self, operand: &Operand) -> Result<Source, Failure> {
        match self.word(operand.name) {
            Word::Plain(_) => self.file(operand),
            Word::Text(text) => {
                let read = Source::of_text(operand, &text.to_string_lossy());
                read.or_else(|mistake| {
                    let (column, words) = (mistake.column, mistake.words);
                    wrong(format!("{TEXT}, character {column}: {words}"))
                })
            }
        }
    }

    /// The step that the operand names.
    pub fn step(&self, operand: &Operand) -> Result<StepName, Failure> {
        let word = self.plain(operand).to_string_lossy();
        step(&word).or_else(|words| self.no_number(operand, words))
    }

    /// The seed that the operand is.
    pub fn seed(&self, operand: &Operand) -> Result<u32, Failure> {
        let word = self.plain(operand).to_string_lossy();
        SEED.read(&word)
            .or_else(|words| self.no_number(operand, words))
    }

    /// Wrong use: an operand that should be a number. It may name a table that belongs elsewhere.
    fn no_number<T>(&self, operand: &Operand, words: String) -> Result<T, Failure> {
        let is_file = fs::metadata(self.path(operand)).is_ok_and(|found| found.is_file());
        let file = is_file.then(|| self.file(operand).ok()).flatten();
        match file.as_ref().and_then(exchanged) {
            Some(hint) => wrong(format!("{words}\n{hint}")),
            None => wrong(words),
        }
    }

    /// Whether the option is given.
    pub fn has(&self, choice: &Choice) -> bool {
        self.options.iter().any(|(one, _)| one.name == choice.name)
    }

    /// The path that is the option's value, if it is given.
    pub fn path_after(&self, choice: &Choice) -> Option<&'a Path> {
        let mut options = self.options.iter();
        let (_, value) = options.find(|(one, _)| one.name == choice.name)?;
        value.map(Path::new)
    }
}

/// What the words go to.
fn outputs() -> impl Iterator<Item = (&'static str, io::Result<Metadata>)> {
    let output = ("standard output", streams::output().metadata());
    let errors = ("standard error", streams::errors().metadata());
    [output, errors].into_iter()
}

/// A step's name from its text, `actor.action`.
fn step(text: &str) -> Result<StepName, String> {
    let shown = quoted(text);
    let Some((actor, action)) = text.split_once('.') else {
        return Err(format!(
            "{shown} is no step: expected ACTOR.ACTION, such as 0.1"
        ));
    };
    let [actor, action] =
        [(ACTOR, actor), (ACTION, action)].map(|(number, word)| number.read(word));
    match (actor, action) {
        (Ok(actor), Ok(action)) => Ok(StepName::new(actor, action)),
        (Err(words), _) | (_, Err(words)) => Err(format!("{shown} is no step: {words}")),
    }
}
