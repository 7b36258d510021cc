//! A line on standard error that counts the inputs that are finished, where that is a terminal and there is more than one.
#![forbid(unsafe_code)]

use std::io::{self, IsTerminal, Write};

pub(crate) struct Progress {
    total: usize,
    on: bool,
    shown: bool,
}

impl Progress {
    pub(crate) fn of(total: usize) -> Progress {
        Progress {
            total,
            on: total > 1 && io::stderr().is_terminal(),
            shown: false,
        }
    }

    pub(crate) fn show(&mut self, finished: usize) {
        if self.on {
            write(&format!("\r{finished} of {}", self.total));
            self.shown = true;
        }
    }

    /// Takes the line away, so that what is written next stands alone.
    pub(crate) fn clear(&mut self) {
        if self.shown {
            write("\r\x1b[K");
            self.shown = false;
        }
    }
}

fn write(text: &str) {
    let mut error = io::stderr();
    let _ = error
        .write_all(text.as_bytes())
        .and_then(|()| error.flush());
}
