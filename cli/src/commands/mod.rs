//! The answer to one input, or to two together, by command.
#![forbid(unsafe_code)]

mod both;
mod check;
mod distances;
mod list;
mod picture;
mod refused;
mod split;
mod table;

use std::fmt::Display;

use yeldmur::{Areas, Refusal, Unit};

use crate::args::{Command, Options};
use crate::input::{Input, Source};
use crate::json::Object;

/// How a run ends, the graver the later: its number is the exit status.
#[derive(Clone, Copy, Debug, PartialEq, Eq, PartialOrd, Ord)]
pub enum Status {
    /// Every input was answered.
    Done = 0,
    /// An input was refused.
    Refused = 1,
    /// Bad usage, or an input or output that cannot be read or written.
    Failed = 2,
}

/// What comes of an input: an output, perhaps empty, and perhaps a message.
#[derive(Debug)]
pub struct Outcome {
    /// What is written where answers go.
    pub output: Vec<u8>,
    /// What is written where the second of two parts goes.
    pub second: Vec<u8>,
    /// What is said on standard error.
    pub message: Option<String>,
    /// What it means for the exit status.
    pub status: Status,
}

impl Outcome {
    fn done(output: impl Into<Vec<u8>>) -> Outcome {
        Outcome {
            output: output.into(),
            second: Vec::new(),
            message: None,
            status: Status::Done,
        }
    }

    fn failed(message: String) -> Outcome {
        Outcome {
            output: Vec::new(),
            second: Vec::new(),
            message: Some(message),
            status: Status::Failed,
        }
    }

    // With what it is about before its message.
    fn about(mut self, what: impl Display) -> Outcome {
        self.message = self.message.map(|message| format!("{what}: {message}"));
        self
    }
}

// Why there is no answer.
enum Trouble {
    Refused(Refusal),
    Failed(String),
}

impl From<Refusal> for Trouble {
    fn from(refusal: Refusal) -> Trouble {
        Trouble::Refused(refusal)
    }
}

/// The answer at a place: to the input there, or to two together. A program gets a line for an input that cannot be read, too.
pub fn answer(options: &Options, areas: &mut Areas, place: usize) -> Outcome {
    if options.command == Command::Both {
        return both::outcome(options);
    }
    let source = &options.inputs[place];
    let mut outcome = match read(source) {
        Ok(input) => answer_to(options, areas, source, &input),
        Err(unread) => unread,
    };
    if options.json && outcome.output.is_empty() {
        let error = outcome.message.as_deref().unwrap_or_default();
        outcome.output = line(document(source).text("error", error));
    }
    outcome.about(source)
}

fn read(source: &Source) -> Result<Input, Outcome> {
    let unread = |error| Outcome::failed(format!("cannot be read: {error}"));
    source.read().map(Input::new).map_err(unread)
}

fn answer_to(options: &Options, areas: &mut Areas, source: &Source, input: &Input) -> Outcome {
    let answered = match options.command {
        Command::Check => return check::outcome(options, source, input),
        Command::Split => return split::outcome(options, source, input),
        Command::Compile => compiled(input),
        Command::Print => printed(input),
        Command::Distances => distances::answer(options, areas, source, input),
        Command::Draw => picture::answer(options, areas, input),
        _ => list::answer(options, areas, source, input),
    };
    match answered {
        Ok(output) => Outcome::done(output),
        Err(Trouble::Refused(refusal)) => refused::outcome(options, source, input, refusal),
        Err(Trouble::Failed(message)) => Outcome::failed(message),
    }
}

fn compiled(input: &Input) -> Result<Vec<u8>, Trouble> {
    Ok(input.sheet()?.into_bytes())
}

fn printed(input: &Input) -> Result<Vec<u8>, Trouble> {
    Ok(input.sheet()?.to_rows()?)
}

// The JSON document of an input, with its name.
fn document(source: &Source) -> Object {
    let name = match source {
        Source::Standard => "-".to_string(),
        Source::File(path) => path.display().to_string(),
    };
    Object::new().text("input", &name)
}

fn line(document: Object) -> Vec<u8> {
    let mut line = document.end().into_bytes();
    line.push(b'\n');
    line
}

// What heads a column of units, so that those of two sheets are not taken for each other.
fn parts_of_one(unit: Unit) -> &'static str {
    match unit {
        Unit::Of64 => "64ths",
        Unit::Of256 => "256ths",
    }
}

// So many of them, in words for people.
fn counted(count: usize, name: &str) -> String {
    let many = if count == 1 { "" } else { "s" };
    format!("{count} {name}{many}")
}
