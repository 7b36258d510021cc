//! What the tests share.
#![forbid(unsafe_code)]
// each test program uses a part of this
#![allow(dead_code)]

use std::fs;
use std::io::Write;
use std::path::PathBuf;
use std::process::{Command, Output, Stdio};

/// The rows of Sheet A.
pub const A: &str = "0 1 1 1 1\n0 2 2 2 0.5\n1 3 3 3 0.25\n1 2 5 5\n2 3 4 4 0.75\n3 0.5\n";

/// The command, with these arguments.
pub fn command(arguments: &[&str]) -> Command {
    let mut command = Command::new(env!("CARGO_BIN_EXE_yeldmur"));
    command
        .args(arguments)
        .stdin(Stdio::piped())
        .stdout(Stdio::piped())
        .stderr(Stdio::piped());
    command
}

/// What a run leaves.
#[derive(Debug)]
pub struct Ran {
    pub status: i32,
    pub out: Vec<u8>,
    pub err: String,
}

impl Ran {
    pub fn text(&self) -> &str {
        std::str::from_utf8(&self.out).unwrap()
    }

    /// A run that went well and said nothing else.
    #[track_caller]
    pub fn ok(self) -> Ran {
        assert_eq!((self.status, self.err.as_str()), (0, ""));
        self
    }
}

impl From<Output> for Ran {
    fn from(output: Output) -> Ran {
        Ran {
            status: output.status.code().expect("it ends by itself"),
            out: output.stdout,
            err: String::from_utf8(output.stderr).unwrap(),
        }
    }
}

/// Runs a command on an input.
pub fn run_on(mut command: Command, input: &[u8]) -> Ran {
    let mut child = command.spawn().unwrap();
    let mut stdin = child.stdin.take().unwrap();
    std::thread::scope(|scope| {
        // a run that reads no input closes the pipe
        scope.spawn(move || {
            let _ = stdin.write_all(input);
        });
        child.wait_with_output().unwrap().into()
    })
}

/// Runs the command with these arguments on an input.
pub fn run(arguments: &[&str], input: impl AsRef<[u8]>) -> Ran {
    run_on(command(arguments), input.as_ref())
}

/// A new folder for a test, by its name.
pub struct Folder(PathBuf);

impl Folder {
    pub fn new(test: &str) -> Folder {
        let path = PathBuf::from(env!("CARGO_TARGET_TMPDIR")).join(test);
        let _ = fs::remove_dir_all(&path);
        fs::create_dir_all(&path).unwrap();
        Folder(path)
    }

    pub fn path(&self, name: &str) -> String {
        self.0.join(name).to_str().unwrap().to_string()
    }

    /// A file with these bytes; its path.
    pub fn file(&self, name: &str, bytes: impl AsRef<[u8]>) -> String {
        let path = self.path(name);
        fs::write(&path, bytes).unwrap();
        path
    }

    pub fn read(&self, name: &str) -> Vec<u8> {
        fs::read(self.path(name)).unwrap()
    }

    pub fn has(&self, name: &str) -> bool {
        self.0.join(name).exists()
    }
}

/// Words as bytes.
pub fn bytes(words: &[u32]) -> Vec<u8> {
    words.iter().flat_map(|word| word.to_le_bytes()).collect()
}

/// A sheet with a unit behind its shorter trailer, which makes it the longer.
pub fn stating(unit: u32, sheet: &[u8]) -> Vec<u8> {
    [sheet, &unit.to_le_bytes()].concat()
}

/// The rows of a chain, with a link of each label from 1 on.
pub fn chain(nodes: u32, weight: &str) -> String {
    let links = (1..nodes).map(|next| format!("{} {next} {next} {next} {weight}\n", next - 1));
    links.collect::<String>() + &format!("{} {weight}\n", nodes - 1)
}

/// A generator of its own (splitmix64), so that what is drawn is the same everywhere.
pub struct Random(pub u64);

impl Random {
    pub fn word(&mut self) -> u64 {
        self.0 = self.0.wrapping_add(0x9E37_79B9_7F4A_7C15);
        let mut x = self.0;
        x = (x ^ (x >> 30)).wrapping_mul(0xBF58_476D_1CE4_E5B9);
        x = (x ^ (x >> 27)).wrapping_mul(0x94D0_49BB_1331_11EB);
        x ^ (x >> 31)
    }

    pub fn below(&mut self, limit: usize) -> usize {
        (self.word() % limit as u64) as usize
    }

    pub fn one_of<T: Clone>(&mut self, all: &[T]) -> T {
        all[self.below(all.len())].clone()
    }
}

/// Whether a text is one JSON document.
pub fn is_json(text: &str) -> bool {
    value(text.as_bytes()).is_some_and(<[u8]>::is_empty)
}

// What follows a value, or none where there is none. The command writes no spaces, and no numbers but whole ones.
fn value(text: &[u8]) -> Option<&[u8]> {
    match text.first()? {
        b'{' => items(&text[1..], b'}', |text| {
            value(string(text)?.strip_prefix(b":")?)
        }),
        b'[' => items(&text[1..], b']', value),
        b'"' => string(text),
        b'-' | b'0'..=b'9' => number(text),
        _ => [&b"true"[..], b"false", b"null"]
            .into_iter()
            .find_map(|word| text.strip_prefix(word)),
    }
}

fn items(text: &[u8], end: u8, item: impl Fn(&[u8]) -> Option<&[u8]>) -> Option<&[u8]> {
    if let Some(rest) = text.strip_prefix(&[end]) {
        return Some(rest);
    }
    let mut rest = item(text)?;
    while let Some(more) = rest.strip_prefix(b",") {
        rest = item(more)?;
    }
    rest.strip_prefix(&[end])
}

fn string(text: &[u8]) -> Option<&[u8]> {
    let mut rest = text.strip_prefix(b"\"")?;
    loop {
        match rest {
            [b'"', rest @ ..] => return Some(rest),
            [b'\\', b'"' | b'\\' | b'n' | b't', more @ ..] => rest = more,
            [b'\\', b'u', a, b, c, d, more @ ..]
                if [a, b, c, d].iter().all(|digit| digit.is_ascii_hexdigit()) =>
            {
                rest = more
            }
            [0..=31 | b'\\', ..] | [] => return None,
            [_, more @ ..] => rest = more,
        }
    }
}

fn number(text: &[u8]) -> Option<&[u8]> {
    let digits = text.strip_prefix(b"-").unwrap_or(text);
    let count = digits
        .iter()
        .take_while(|byte| byte.is_ascii_digit())
        .count();
    let fits = count == 1 || (count > 1 && digits[0] != b'0');
    fits.then(|| &digits[count..])
}
