//! Where answers go: standard output, one file, or a file for each input in a folder.
#![forbid(unsafe_code)]

use std::collections::HashSet;
use std::ffi::{OsStr, OsString};
use std::fs::{self, File, OpenOptions};
use std::io::{self, ErrorKind, Write};
use std::os::unix::fs::MetadataExt;
use std::path::{Path, PathBuf};

use crate::args::{Command, Options};
use crate::input::Source;

pub(crate) enum Destination {
    Standard,
    // made with the first answer, so that a refusal leaves the file as it was
    File { path: PathBuf, made: Option<File> },
    Folder { path: PathBuf, ending: &'static str },
}

/// What could not be written, and why.
pub(crate) struct Unwritten {
    pub(crate) place: String,
    pub(crate) error: io::Error,
}

impl Destination {
    /// The destination that the options name, or what is wrong with it for these inputs.
    pub(crate) fn of(options: &Options) -> Result<Destination, String> {
        let named = options
            .output
            .clone()
            .filter(|path| path.as_os_str() != "-");
        if let Some(path) = named.clone().filter(|path| path.is_dir()) {
            if matches!(options.command, Command::Both | Command::Split) {
                return Err(no_file(&path));
            }
            let ending = options.ending();
            files_differ(&options.inputs, ending)?;
            return Ok(Destination::Folder { path, ending });
        }
        if options.inputs.len() > 1 && options.one_to_a_file() {
            let why = "several inputs need a folder for their answers: name one with -o";
            return Err(why.to_string());
        }
        Ok(match named {
            Some(path) => Destination::File { path, made: None },
            None => Destination::Standard,
        })
    }

    /// The destination of the second of two parts, or none where an answer is one.
    pub(crate) fn second(options: &Options) -> Result<Option<Destination>, String> {
        let Some(path) = options.second.clone() else {
            return Ok(None);
        };
        let first = options.output.as_ref();
        if first.is_some_and(|first| same_place(first, &path)) {
            return Err("the two parts need two places".to_string());
        }
        if path.as_os_str() == "-" {
            return Ok(Some(Destination::Standard));
        }
        if path.is_dir() {
            return Err(no_file(&path));
        }
        Ok(Some(Destination::File { path, made: None }))
    }

    /// Its one file, opened for writing and still as it was; made where it was not there.
    pub(crate) fn opened(&self) -> Result<Option<File>, Unwritten> {
        let Destination::File { path, .. } = self else {
            return Ok(None);
        };
        let mut as_it_was = OpenOptions::new();
        as_it_was.write(true).create(true).truncate(false);
        as_it_was.open(path).map(Some).map_err(at(path))
    }

    /// Whether each answer has a file of its own.
    pub(crate) fn is_folder(&self) -> bool {
        matches!(self, Destination::Folder { .. })
    }

    pub(crate) fn write(&mut self, source: &Source, bytes: &[u8]) -> Result<(), Unwritten> {
        match self {
            Destination::Standard => {
                let mut standard = io::stdout().lock();
                standard
                    .write_all(bytes)
                    .and_then(|()| standard.flush())
                    .map_err(|error| Unwritten {
                        place: "standard output".to_string(),
                        error,
                    })
            }
            Destination::File { path, made } => append(path, made, bytes).map_err(at(path)),
            Destination::Folder { path, ending } => {
                let file = path.join(file_name(source, ending));
                fs::write(&file, bytes).map_err(at(&file))
            }
        }
    }
}

// Whether both name one place, however they spell it.
fn same_place(one: &Path, other: &Path) -> bool {
    one == other || place_of(one).is_some_and(|place| place_of(other) == Some(place))
}

// What tells a place apart: the device and number of its file; where no file is there yet, those of the folder that it would be made in,
// and its name there. None where it could not be made.
fn place_of(path: &Path) -> Option<(u64, u64, OsString)> {
    let path = match path.as_os_str() == "-" {
        true => Path::new("/dev/stdout"),
        false => path,
    };
    let (found, name) = match fs::metadata(path) {
        Err(error) if error.kind() == ErrorKind::NotFound => {
            let path = led_to(path);
            let folder = Path::new(".").join(path.parent()?);
            (fs::metadata(folder).ok()?, path.file_name()?.to_os_string())
        }
        found => (found.ok()?, OsString::new()),
    };
    Some((found.dev(), found.ino(), name))
}

// Where links lead that end at no file: it would be made there.
fn led_to(path: &Path) -> PathBuf {
    let mut path = path.to_path_buf();
    while let Ok(next) = fs::read_link(&path) {
        path.pop();
        path.push(next);
    }
    path
}

fn no_file(path: &Path) -> String {
    format!(
        "{} is a folder, and the one sheet needs a file",
        path.display()
    )
}

fn at(path: &Path) -> impl FnOnce(io::Error) -> Unwritten {
    let place = path.display().to_string();
    |error| Unwritten { place, error }
}

fn append(path: &Path, made: &mut Option<File>, bytes: &[u8]) -> io::Result<()> {
    let file = match made {
        Some(file) => file,
        None => made.insert(File::create(path)?),
    };
    file.write_all(bytes)
}

// The file that an input's answer goes to: the input's name with another ending.
fn file_name(source: &Source, ending: &str) -> OsString {
    let stem = match source {
        Source::Standard => None,
        Source::File(path) => path.file_stem(),
    };
    let mut name = stem.unwrap_or(OsStr::new("stdin")).to_os_string();
    name.push(".");
    name.push(ending);
    name
}

fn files_differ(inputs: &[Source], ending: &str) -> Result<(), String> {
    let mut names = HashSet::new();
    for source in inputs {
        let name = file_name(source, ending);
        if names.contains(&name) {
            let name = name.to_string_lossy();
            return Err(format!("two inputs have the name {name} there"));
        }
        names.insert(name);
    }
    Ok(())
}

#[cfg(test)]
mod tests {
    use super::*;

    #[test]
    fn names_in_a_folder() {
        let named = |path: &str| Source::named(path.into());
        assert_eq!(file_name(&named("x/a.b.txt"), "sheet"), "a.b.sheet");
        assert_eq!(file_name(&named("a"), "svg"), "a.svg");
        assert_eq!(file_name(&Source::Standard, "txt"), "stdin.txt");
        assert!(files_differ(&[named("a.x"), named("b.x")], "sheet").is_ok());
        assert!(files_differ(&[named("a.x"), named("b/a.y")], "sheet").is_err());
    }
}
