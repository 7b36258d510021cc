//! A run of the command: its arguments, then the answer to each input, in their order, or to two together.
#![forbid(unsafe_code)]

use std::ffi::OsString;
use std::io::{self, ErrorKind, IsTerminal, Write};
use std::ops::ControlFlow;
use std::process::ExitCode;

use yeldmur::Areas;

use crate::args::{self, Options, Request};
use crate::commands::{self, Outcome, Status};
use crate::help;
use crate::input::Source;
use crate::jobs::{in_order, Event};
use crate::output::{Destination, Unwritten};
use crate::progress::Progress;

/// Does what the arguments ask, and tells the exit status: 0, 1 where an input is refused, 2 for bad usage or an input or output that
/// cannot be read or written.
pub fn run(arguments: impl Iterator<Item = OsString>) -> ExitCode {
    let status = match args::parse(arguments) {
        Ok(Request::Help(command)) => show(&help::text(command)),
        Ok(Request::Version) => show(&help::version()),
        Ok(Request::Answer(options)) => answer_all(&options),
        Err(usage) => fail(&usage),
    };
    ExitCode::from(status as u8)
}

// A message that cannot be written is lost: there is no other place to tell it.
fn complain(message: &str) {
    let _ = writeln!(io::stderr(), "yeldmur: {message}");
}

fn fail(message: &str) -> Status {
    complain(message);
    Status::Failed
}

fn show(text: &str) -> Status {
    match Destination::Standard.write(&Source::Standard, text.as_bytes()) {
        Ok(()) => Status::Done,
        Err(unwritten) => after(unwritten, Status::Done),
    }
}

// Who closes a pipe has seen enough: the run ends quietly, with the status so far.
fn after(unwritten: Unwritten, status: Status) -> Status {
    if unwritten.error.kind() == ErrorKind::BrokenPipe {
        return status;
    }
    fail(&format!(
        "{}: cannot be written: {}",
        unwritten.place, unwritten.error
    ))
}

fn answer_all(options: &Options) -> Status {
    if options.in_bytes() && options.output.is_none() && io::stdout().is_terminal() {
        return fail(
            "these are bytes and no text for a terminal: name a file with -o, or say -o -",
        );
    }
    let destinations =
        Destination::of(options).and_then(|first| Ok((first, Destination::second(options)?)));
    let (destination, second) = match destinations {
        Ok(destinations) => destinations,
        Err(usage) => return fail(&usage),
    };
    let mut run = Run {
        options,
        destination,
        second,
        progress: Progress::of(options.answers()),
        status: Status::Done,
    };
    in_order(
        options.answers(),
        options.jobs,
        Areas::new,
        |areas, place| commands::answer(options, areas, place),
        |event| run.take(event),
    );
    run.progress.clear();
    run.status
}

// The side of a run that hands answers over.
struct Run<'a> {
    options: &'a Options,
    destination: Destination,
    second: Option<Destination>,
    progress: Progress,
    status: Status,
}

impl Run<'_> {
    fn take(&mut self, event: Event<Outcome>) -> ControlFlow<()> {
        match event {
            Event::Finished(count) => {
                self.progress.show(count);
                ControlFlow::Continue(())
            }
            Event::Next(place, outcome) => {
                self.progress.clear();
                self.deliver(&self.options.inputs[place], outcome)
            }
        }
    }

    // Where an answer cannot be written the run ends.
    fn deliver(&mut self, source: &Source, outcome: Outcome) -> ControlFlow<()> {
        self.status = outcome.status.max(self.status);
        if let Some(message) = &outcome.message {
            complain(message);
        }
        if outcome.output.is_empty() {
            return ControlFlow::Continue(());
        }
        let output = self.headed(source, outcome.output);
        match self.write(source, &output, &outcome.second) {
            Ok(()) => ControlFlow::Continue(()),
            Err(unwritten) => {
                self.status = after(unwritten, self.status);
                ControlFlow::Break(())
            }
        }
    }

    // Both places of two parts are opened before either is written: one may be the input, of which nothing may be lost.
    fn write(&mut self, source: &Source, output: &[u8], rest: &[u8]) -> Result<(), Unwritten> {
        let Some(second) = &mut self.second else {
            return self.destination.write(source, output);
        };
        let _held = (self.destination.opened()?, second.opened()?);
        self.destination.write(source, output)?;
        second.write(source, rest)
    }

    // Several answers in one place are told apart by the names of their inputs.
    fn headed(&self, source: &Source, output: Vec<u8>) -> Vec<u8> {
        if !self.options.headed() || self.destination.is_folder() {
            return output;
        }
        [format!("==> {source} <==\n").into_bytes(), output].concat()
    }
}
