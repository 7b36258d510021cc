//! Where inputs come from, and the sheet that each gives.
#![forbid(unsafe_code)]

use std::ffi::OsString;
use std::fmt;
use std::fs;
use std::io::{self, Read};
use std::path::PathBuf;

use yeldmur::{raw, Refusal, Sheet, Unit, LINK_LIMIT, NODE_LIMIT};

use crate::diagnose::{form, Form};

/// Where an input comes from.
#[derive(Clone, Debug, PartialEq, Eq)]
pub enum Source {
    /// Standard input.
    Standard,
    /// A file.
    File(PathBuf),
}

impl Source {
    /// The source that an argument names: `-` is standard input.
    pub fn named(argument: OsString) -> Source {
        if argument == "-" {
            Source::Standard
        } else {
            Source::File(argument.into())
        }
    }

    /// All of its bytes.
    pub fn read(&self) -> io::Result<Vec<u8>> {
        match self {
            Source::File(path) => fs::read(path),
            Source::Standard => {
                let mut bytes = Vec::new();
                io::stdin().lock().read_to_end(&mut bytes)?;
                Ok(bytes)
            }
        }
    }
}

impl fmt::Display for Source {
    fn fmt(&self, f: &mut fmt::Formatter<'_>) -> fmt::Result {
        match self {
            Source::Standard => f.write_str("standard input"),
            Source::File(path) => path.display().fmt(f),
        }
    }
}

/// An input: its bytes, and whether they are rows or a sheet.
pub struct Input {
    /// The bytes.
    pub bytes: Vec<u8>,
    /// What they are taken for.
    pub form: Form,
}

// The bytes of the longest sheet that is searched and that rows give.
const SEARCHED: usize = 16 * LINK_LIMIT as usize + 12 * NODE_LIMIT as usize + 20;

impl Input {
    /// An input of these bytes.
    pub fn new(bytes: Vec<u8>) -> Input {
        let form = form(&bytes);
        Input { bytes, form }
    }

    /// The sheet that it is or gives. Refusals 1, 14 and 2 to 4 of a sheet; 8, 1 and 4 of rows.
    pub fn sheet(&self) -> Result<Sheet, Refusal> {
        match self.form {
            Form::Rows => Sheet::from_rows(&self.bytes),
            Form::Sheet => Sheet::read(self.bytes.as_slice()),
        }
    }

    /// The same for a search: rows that give a longer sheet than is searched are refused with 5 at once, since a few bytes of rows
    /// can ask for gigabytes of it.
    pub fn sheet_to_search(&self) -> Result<Sheet, Refusal> {
        if self.form == Form::Rows && raw::rows_sheet_bytes(&self.bytes)? > SEARCHED {
            return Err(Refusal::Limits);
        }
        self.sheet()
    }

    /// The sheet where a search accepts it. Refusals 5 and 6, too.
    pub fn accepted(&self) -> Result<Sheet, Refusal> {
        let sheet = self.sheet_to_search()?;
        raw::areas(sheet.bytes(), 0)?;
        Ok(sheet)
    }

    /// The sheet where it is accepted as the second of two, beside a first that is. Right after 1 it is refused with 14 where its unit is not
    /// the first's, too, which the call for two tells. Rows are of unit 1/64, also where the sheet would be too long.
    pub fn accepted_beside(&self, first: &Sheet) -> Result<Sheet, Refusal> {
        let told = match self.form {
            Form::Sheet => raw::two_probes(first.bytes(), &self.bytes, &mut []).map(|_| ()),
            Form::Rows if first.unit() == Unit::Of64 => Ok(()),
            Form::Rows => raw::rows_sheet_bytes(&self.bytes).and(Err(Refusal::Unit)),
        };
        match told {
            Err(Refusal::Unit) => Err(Refusal::Unit),
            _ => self.accepted(),
        }
    }
}

#[cfg(test)]
mod tests {
    use super::*;

    #[test]
    fn sources() {
        assert_eq!(Source::named("-".into()), Source::Standard);
        let file = Source::named("a.rows".into());
        assert_eq!(file.to_string(), "a.rows");
        assert_eq!(Source::Standard.to_string(), "standard input");
    }

    #[test]
    fn rows_of_a_long_sheet() {
        let far = Input::new(b"4294967294\n".to_vec());
        assert_eq!(far.sheet_to_search(), Err(Refusal::Limits));
        let last = Input::new(b"2047\n".to_vec());
        assert_eq!(last.sheet_to_search().unwrap().node_count(), 2048);
        // short enough as a sheet of many nodes, and refused by the search itself
        let more = Input::new(b"2048\n".to_vec()).sheet_to_search().unwrap();
        assert_eq!(yeldmur::list(&more, 1).unwrap_err(), Refusal::Limits);
    }
}
