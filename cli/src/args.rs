//! The arguments: commands, options, and how they are read. Every option stands in one table, from which `--help` is printed too.
#![forbid(unsafe_code)]

use std::collections::BTreeSet;
use std::ffi::{OsStr, OsString};
use std::os::unix::ffi::OsStrExt;
use std::path::PathBuf;

use yeldmur::LIST_LIMIT;

use crate::input::Source;

/// What is asked for.
#[derive(Debug, PartialEq, Eq)]
pub enum Request {
    /// Help for the whole, or for a command.
    Help(Option<Command>),
    /// The version.
    Version,
    /// An answer to each input.
    Answer(Options),
}

/// The commands.
#[derive(Clone, Copy, Debug, PartialEq, Eq)]
pub enum Command {
    /// Rows to a sheet.
    Compile,
    /// A sheet to rows.
    Print,
    /// The cheapest readings.
    List,
    /// The cheapest reading.
    Best,
    /// The distances of the nodes.
    Distances,
    /// The sheet of what two machines both allow.
    Both,
    /// The two parts of a machine that narrows to a node.
    Split,
    /// A picture.
    Draw,
    /// What a refusal means, and where the fault is.
    Check,
}

use Command::{Best, Both, Check, Compile, Distances, Draw, List, Print, Split};

/// The commands, in the order of the help.
pub const COMMANDS: [Command; 9] = [
    Compile, Print, List, Best, Distances, Both, Split, Draw, Check,
];

// Those that answer each input by itself.
const EACH: &[Command] = &[Compile, Print, List, Best, Distances, Draw, Check];

impl Command {
    /// Its name.
    pub fn name(self) -> &'static str {
        match self {
            Compile => "compile",
            Print => "print",
            List => "list",
            Best => "best",
            Distances => "distances",
            Both => "both",
            Split => "split",
            Draw => "draw",
            Check => "check",
        }
    }
}

/// What an option sets.
#[derive(Clone, Copy, Debug, PartialEq, Eq)]
pub enum Key {
    /// How many readings are listed: one count, or several.
    Counts,
    /// How many readings are laid over a picture.
    Count,
    /// Where answers go.
    Output,
    /// Where the two parts go: it takes two values.
    Parts,
    /// Answers as JSON.
    Json,
    /// The form of a picture.
    Form,
    /// How many threads.
    Jobs,
    /// Help.
    Help,
    /// The version.
    Version,
}

/// An option: its names, the name of its value where it takes one, the commands that it is for, and what is said of it.
pub struct Flag {
    /// What it sets.
    pub key: Key,
    /// The letter after one dash.
    pub short: Option<char>,
    /// The word after two dashes.
    pub long: &'static str,
    /// What its value is called.
    pub value: Option<&'static str>,
    /// The commands that have it.
    pub commands: &'static [Command],
    /// What it does.
    pub help: &'static str,
}

/// Every option.
pub const FLAGS: [Flag; 10] = [
    Flag {
        key: Key::Counts,
        short: Some('n'),
        long: "count",
        value: Some("COUNTS"),
        commands: &[List],
        help: "list so many, up to 64, or several, as in 3,10; 10 if not said",
    },
    Flag {
        key: Key::Count,
        short: Some('n'),
        long: "count",
        value: Some("COUNT"),
        commands: &[Draw],
        help: "lay the COUNT cheapest readings over the machine, 64 at the most",
    },
    Flag {
        key: Key::Form,
        short: Some('T'),
        long: "form",
        value: Some("FORM"),
        commands: &[Draw],
        help: "dot (where it is not said), svg or png; these two need Graphviz",
    },
    Flag {
        key: Key::Json,
        short: None,
        long: "json",
        value: None,
        commands: &[List, Best, Distances, Check],
        help: "print one JSON document on a line for each input",
    },
    Flag {
        key: Key::Output,
        short: Some('o'),
        long: "output",
        value: Some("PLACE"),
        commands: EACH,
        help: "write to this file, to - (standard output), or into this folder",
    },
    Flag {
        key: Key::Output,
        short: Some('o'),
        long: "output",
        value: Some("PLACE"),
        commands: &[Both],
        help: "write to this file, or to - (standard output)",
    },
    Flag {
        key: Key::Parts,
        short: Some('o'),
        long: "output",
        value: Some("FIRST SECOND"),
        commands: &[Split],
        help: "write the parts to these files; one may be - (standard output)",
    },
    Flag {
        key: Key::Jobs,
        short: Some('j'),
        long: "jobs",
        value: Some("JOBS"),
        commands: EACH,
        help: "work on so many inputs at once; answers stay in their order",
    },
    Flag {
        key: Key::Help,
        short: Some('h'),
        long: "help",
        value: None,
        commands: &COMMANDS,
        help: "print this help",
    },
    Flag {
        key: Key::Version,
        short: Some('V'),
        long: "version",
        value: None,
        commands: &[],
        help: "print the version",
    },
];

/// The form of a picture.
#[derive(Clone, Copy, Debug, PartialEq, Eq)]
pub enum Picture {
    /// Graphviz's language.
    Dot,
    /// A drawing of lines.
    Svg,
    /// A drawing of points.
    Png,
}

impl Picture {
    /// Its name, which is also the ending of its files.
    pub fn name(self) -> &'static str {
        match self {
            Picture::Dot => "dot",
            Picture::Svg => "svg",
            Picture::Png => "png",
        }
    }
}

/// How many readings are listed: one count, or several of which each has a list of its own.
#[derive(Clone, Debug, PartialEq, Eq)]
pub struct Counts {
    longest: u32,
    // in rising order, each below the longest
    shorter: Vec<u32>,
}

impl Counts {
    /// One count alone.
    pub fn one(count: u32) -> Counts {
        Counts {
            longest: count,
            shorter: Vec::new(),
        }
    }

    /// The largest of them.
    pub fn longest(&self) -> u32 {
        self.longest
    }

    /// The others, in rising order.
    pub fn shorter(&self) -> &[u32] {
        &self.shorter
    }

    // Counts parted by commas, in any order; one that is repeated counts once.
    fn read(value: &OsStr) -> Result<Counts, String> {
        let parts = value.as_bytes().split(|&byte| byte == b',');
        let parts: Vec<&OsStr> = parts.map(OsStr::from_bytes).collect();
        if let [alone] = parts[..] {
            return count(alone).map(Counts::one);
        }
        let read = |(place, part): (usize, &OsStr)| match part.is_empty() {
            true => Err(format!("part {} is empty", place + 1)),
            false => count(part),
        };
        let counts: Result<BTreeSet<u32>, String> =
            parts.into_iter().enumerate().map(read).collect();
        let mut counts = counts.map_err(|wrong| format!("{}: {wrong}", value.to_string_lossy()))?;
        // a value has a part at least, so that there is a largest
        let longest = counts.pop_last().unwrap_or_default();
        Ok(Counts {
            longest,
            shorter: counts.into_iter().collect(),
        })
    }
}

/// What is asked of each input, or of two together.
#[derive(Debug, PartialEq, Eq)]
pub struct Options {
    /// The command.
    pub command: Command,
    /// How many readings are listed, where it is said.
    pub counts: Option<Counts>,
    /// How many readings are laid over a picture, where it is said.
    pub count: Option<u32>,
    /// Where answers go, where it is said, or the first of two parts.
    pub output: Option<PathBuf>,
    /// Where the second of two parts goes.
    pub second: Option<PathBuf>,
    /// The node where two parts meet.
    pub node: u32,
    /// Answers as JSON.
    pub json: bool,
    /// The form of a picture.
    pub picture: Picture,
    /// How many threads.
    pub jobs: usize,
    /// The inputs.
    pub inputs: Vec<Source>,
}

impl Options {
    fn of(command: Command) -> Options {
        Options {
            command,
            counts: None,
            count: None,
            output: None,
            second: None,
            node: 0,
            json: false,
            picture: Picture::Dot,
            jobs: 1,
            inputs: Vec::new(),
        }
    }

    /// Whether the answer is bytes that are no text.
    pub fn in_bytes(&self) -> bool {
        let sheet = matches!(self.command, Compile | Both | Split);
        sheet || (self.command == Draw && self.picture == Picture::Png)
    }

    /// How many answers there are: one to each input, or one to two together.
    pub fn answers(&self) -> usize {
        match self.command {
            Both => 1,
            _ => self.inputs.len(),
        }
    }

    /// Whether two answers in one file would be no answer: joined sheets, rows and pictures are others.
    pub fn one_to_a_file(&self) -> bool {
        matches!(self.command, Compile | Print | Draw)
    }

    /// Whether answers in one place are headed by the names of their inputs.
    pub fn headed(&self) -> bool {
        let texts = matches!(self.command, List | Best | Distances) && !self.json;
        texts && self.inputs.len() > 1
    }

    /// The ending of the files that answers go to.
    pub fn ending(&self) -> &'static str {
        match self.command {
            Compile => "sheet",
            Print => "rows",
            Draw => self.picture.name(),
            _ if self.json => "json",
            _ => "txt",
        }
    }

    // Sets what an option says. The value is empty where it takes none.
    fn set(&mut self, key: Key, value: OsString) -> Result<(), String> {
        match key {
            Key::Counts => self.counts = Some(Counts::read(&value)?),
            Key::Count => self.count = Some(count_alone(&value)?),
            Key::Output | Key::Parts => self.output = Some(value.into()),
            Key::Json => self.json = true,
            Key::Form => self.picture = picture(&value)?,
            Key::Jobs => self.jobs = number(&value, 1, 1024)?,
            Key::Help | Key::Version => {}
        }
        Ok(())
    }

    // Without inputs it is standard input, which can be read but once. Of two together both are named, and before a node the one.
    fn with_inputs(mut self, mut inputs: Vec<Source>) -> Result<Options, String> {
        if self.command == Split {
            self.node = node_of(&mut inputs)?;
            if self.output.is_none() {
                return Err("split needs two files for the parts: -o FIRST SECOND".to_string());
            }
        }
        let standard = inputs.iter().filter(|source| **source == Source::Standard);
        if standard.count() > 1 {
            return Err("standard input is named twice".to_string());
        }
        if self.command == Both && inputs.len() != 2 {
            return Err("both takes two inputs, FIRST and SECOND".to_string());
        }
        self.inputs = inputs;
        if self.inputs.is_empty() {
            self.inputs.push(Source::Standard);
        }
        Ok(self)
    }
}

// The node that stands behind the one input.
fn node_of(inputs: &mut Vec<Source>) -> Result<u32, String> {
    if inputs.len() != 2 {
        return Err("split takes an input and a node, FILE and NODE".to_string());
    }
    let node = match inputs.pop() {
        Some(Source::File(path)) => path.into_os_string(),
        _ => "-".into(),
    };
    let read = number(&node, 0, u32::MAX as usize);
    read.map(|node| node as u32)
        .map_err(|wrong| format!("NODE: {wrong}"))
}

// How many readings a list has at the most.
fn count(value: &OsStr) -> Result<u32, String> {
    number(value, 0, LIST_LIMIT as usize).map(|count| count as u32)
}

// A picture shows one list.
fn count_alone(value: &OsStr) -> Result<u32, String> {
    if value.as_bytes().contains(&b',') {
        let value = value.to_string_lossy();
        return Err(format!("{value}: draw takes one count alone"));
    }
    count(value)
}

fn number(value: &OsStr, least: usize, most: usize) -> Result<usize, String> {
    let read = value.to_str().and_then(|text| text.parse().ok());
    read.filter(|number| (least..=most).contains(number))
        .ok_or_else(|| {
            format!(
                "{} is no number from {least} to {most}",
                value.to_string_lossy()
            )
        })
}

fn picture(value: &OsStr) -> Result<Picture, String> {
    [Picture::Dot, Picture::Svg, Picture::Png]
        .into_iter()
        .find(|picture| value == picture.name())
        .ok_or_else(|| format!("{} is none of dot, svg and png", value.to_string_lossy()))
}

/// Reads the arguments, without the program's own name. What is wrong with them is said in words.
pub fn parse(arguments: impl Iterator<Item = OsString>) -> Result<Request, String> {
    let mut arguments = arguments;
    let Some(first) = arguments.next() else {
        return Err("which command? yeldmur --help names them".to_string());
    };
    if is_option(&first) {
        return whole(&first);
    }
    let named = COMMANDS.into_iter().find(|command| first == command.name());
    let Some(command) = named else {
        let name = first.to_string_lossy();
        return Err(format!("no command {name}: yeldmur --help names them"));
    };
    parse_of(command, arguments)
}

fn is_option(argument: &OsStr) -> bool {
    argument.as_bytes().first() == Some(&b'-') && argument != "-"
}

// An option in the place of a command.
fn whole(argument: &OsStr) -> Result<Request, String> {
    match argument.to_str() {
        Some("-h" | "--help") => Ok(Request::Help(None)),
        Some("-V" | "--version") => Ok(Request::Version),
        _ => Err(format!(
            "no option {} before a command: yeldmur --help names them",
            argument.to_string_lossy()
        )),
    }
}

fn parse_of(
    command: Command,
    mut arguments: impl Iterator<Item = OsString>,
) -> Result<Request, String> {
    let mut options = Options::of(command);
    let mut inputs = Vec::new();
    while let Some(argument) = arguments.next() {
        if argument == "--" {
            inputs.extend(arguments.by_ref().map(Source::named));
        } else if !is_option(&argument) {
            inputs.push(Source::named(argument));
        } else {
            let (flag, joined) = flag_of(command, &argument)?;
            if flag.key == Key::Help {
                return Ok(Request::Help(Some(command)));
            }
            let value = value_of(flag, joined, &mut arguments)?;
            let said = options.set(flag.key, value);
            said.map_err(|wrong| format!("--{}: {wrong}", flag.long))?;
            if flag.key == Key::Parts {
                options.second = Some(value_of(flag, None, &mut arguments)?.into());
            }
        }
    }
    Ok(Request::Answer(options.with_inputs(inputs)?))
}

// The option that an argument names, and the value that is joined to it: -n5, --count=5.
fn flag_of(command: Command, argument: &OsStr) -> Result<(&'static Flag, Option<String>), String> {
    let unknown = || {
        let name = argument.to_string_lossy();
        format!("no option {name} here: the command's --help names them")
    };
    let text = argument.to_str().ok_or_else(unknown)?;
    let mut flags = FLAGS.iter().filter(|flag| flag.commands.contains(&command));
    if let Some(long) = text.strip_prefix("--") {
        let (name, joined) = match long.split_once('=') {
            Some((name, value)) => (name, Some(value.to_string())),
            None => (long, None),
        };
        let flag = flags.find(|flag| flag.long == name).ok_or_else(unknown)?;
        return Ok((flag, joined));
    }
    let mut letters = text[1..].chars();
    let short = letters.next();
    let flag = flags.find(|flag| flag.short == short).ok_or_else(unknown)?;
    let rest = letters.as_str();
    Ok((flag, (!rest.is_empty()).then(|| rest.to_string())))
}

fn value_of(
    flag: &Flag,
    joined: Option<String>,
    arguments: &mut impl Iterator<Item = OsString>,
) -> Result<OsString, String> {
    match (flag.value, joined) {
        (None, None) => Ok(OsString::new()),
        (None, Some(_)) => Err(format!("--{} takes no value", flag.long)),
        (Some(_), Some(joined)) => Ok(joined.into()),
        (Some(name), None) => arguments
            .next()
            .ok_or_else(|| format!("--{} needs its {name}", flag.long)),
    }
}

#[cfg(test)]
mod tests {
    use super::*;

    fn parsed(line: &str) -> Result<Request, String> {
        parse(line.split_whitespace().map(OsString::from))
    }

    fn options(line: &str) -> Options {
        match parsed(line) {
            Ok(Request::Answer(options)) => options,
            other => panic!("{line}: {other:?}"),
        }
    }

    fn file(name: &str) -> Source {
        Source::File(name.into())
    }

    #[test]
    fn values_in_every_form() {
        for line in [
            "list -n 3 a",
            "list -n3 a",
            "list --count 3 a",
            "list --count=3 a",
            "list a -n 3",
            "list -n 3 -- a",
        ] {
            let options = options(line);
            assert_eq!(options.counts, Some(Counts::one(3)), "{line}");
            assert_eq!(options.count, None);
            assert_eq!(options.inputs, [file("a")], "{line}");
        }
        let last = options("draw -n 1 -n 2 -T svg -o x -j 8");
        assert_eq!((last.count, last.jobs), (Some(2), 8));
        assert_eq!(
            (last.picture, last.output),
            (Picture::Svg, Some("x".into()))
        );
    }

    #[test]
    fn several_counts() {
        let counts = |line: &str| {
            let counts = options(line).counts.unwrap();
            (counts.longest(), counts.shorter().to_vec())
        };
        for line in [
            "list -n 3,10,64",
            "list -n64,3,10",
            "list --count 10,3,64,3,10,64",
            "list --count=03,10,64",
            "list -n 5,6 -n 10,64,3",
        ] {
            assert_eq!(counts(line), (64, vec![3, 10]), "{line}");
        }
        assert_eq!(counts("list -n 1,0"), (1, vec![0]));
        assert_eq!(counts("list -n 2,1 -n 5"), (5, vec![]));
        for line in ["list -n 7,7", "list -n 7,7,7", "list -n 3,10 -n 7"] {
            assert_eq!(options(line).counts, Some(Counts::one(7)), "{line}");
        }
        assert_eq!(options("list a").counts, None);
        let all: Vec<String> = (0..=64).rev().map(|count| count.to_string()).collect();
        let line = format!("list -n {}", all.join(","));
        assert_eq!(counts(&line), (64, (0..64).collect()));
    }

    // The part that is wrong is named.
    #[test]
    fn wrong_counts() {
        for (value, said) in [
            ("3,", "3,: part 2 is empty"),
            (",3", ",3: part 1 is empty"),
            ("3,,10", "3,,10: part 2 is empty"),
            (",", ",: part 1 is empty"),
            ("3,65", "3,65: 65 is no number from 0 to 64"),
            ("65,3", "65,3: 65 is no number from 0 to 64"),
            ("3,x,65", "3,x,65: x is no number from 0 to 64"),
            ("3,-1", "3,-1: -1 is no number from 0 to 64"),
            ("3;10", "3;10 is no number from 0 to 64"),
            ("65", "65 is no number from 0 to 64"),
        ] {
            let said = Err(format!("--count: {said}"));
            assert_eq!(parsed(&format!("list -n {value}")), said);
        }
        for value in ["3,10", "3,", "3,3"] {
            let said = Err(format!("--count: {value}: draw takes one count alone"));
            assert_eq!(parsed(&format!("draw -n {value}")), said);
        }
        let arguments = ["list", "-n", "3, 10"].map(OsString::from);
        let said = "--count: 3, 10:  10 is no number from 0 to 64";
        assert_eq!(parse(arguments.into_iter()), Err(said.to_string()));
        let arguments = ["list", "-n"].map(OsString::from).into_iter();
        let odd = arguments.chain([OsStr::from_bytes(b"3,\xff").to_os_string()]);
        let said = "--count: 3,\u{fffd}: \u{fffd} is no number from 0 to 64";
        assert_eq!(parse(odd), Err(said.to_string()));
    }

    #[test]
    fn inputs() {
        assert_eq!(options("best").inputs, [Source::Standard]);
        assert_eq!(options("best -").inputs, [Source::Standard]);
        let odd = options("check a - -- -n --json");
        assert_eq!(
            odd.inputs,
            [file("a"), Source::Standard, file("-n"), file("--json")]
        );
        assert!(parsed("best - -").is_err());
        let two = options("both -o x - -- -b");
        assert_eq!(two.inputs, [Source::Standard, file("-b")]);
        assert_eq!((two.answers(), options("best a b").answers()), (1, 2));
    }

    #[test]
    fn parts() {
        for line in [
            "split a 4294967295 -o x y",
            "split -o x y a 4294967295",
            "split a -ox y 4294967295",
            "split a --output=x y -- 4294967295",
        ] {
            let parts = options(line);
            assert_eq!(parts.inputs, [file("a")], "{line}");
            assert_eq!((parts.node, parts.answers()), (u32::MAX, 1));
            let places = [parts.output, parts.second].map(|place| place.unwrap());
            assert_eq!(places, ["x", "y"].map(PathBuf::from), "{line}");
        }
        assert_eq!(options("split - 0 -o - y").inputs, [Source::Standard]);
    }

    #[test]
    fn help_and_version() {
        assert_eq!(parsed("--help"), Ok(Request::Help(None)));
        assert_eq!(parsed("-V"), Ok(Request::Version));
        assert_eq!(parsed("list --help x"), Ok(Request::Help(Some(List))));
        assert_eq!(parsed("draw -h"), Ok(Request::Help(Some(Draw))));
    }

    #[test]
    fn bad_usage() {
        for line in [
            "",
            "lists",
            "-x",
            "--json list",
            "list -n",
            "list -n 65",
            "list -n -1",
            "list -n 1e1",
            "list --count=",
            "list -x",
            "list --jsons",
            "list --json=1",
            "list -T svg",
            "list -n 3,x",
            "best -n 2",
            "best -n 1,2",
            "draw -T gif",
            "draw --json",
            "check -j 0",
            "check --jobs many",
            "print -V",
            "both",
            "both a",
            "both a b c",
            "both - -",
            "both -j 2 a b",
            "both --json a b",
            "split",
            "split a 1",
            "split a -o x y",
            "split 1 -o x y",
            "split a b 1 -o x y",
            "split a 1 -o x",
            "split a -1 -o x y",
            "split a - -o x y",
            "split a x -o x y",
            "split a 4294967296 -o x y",
            "split a 1 -o x y -j 2",
            "split a 1 -o x y --json",
        ] {
            assert!(parsed(line).is_err(), "{line}");
        }
    }

    #[test]
    fn every_option_has_a_name_of_its_own() {
        for command in COMMANDS {
            let mut names: Vec<_> = FLAGS
                .iter()
                .filter(|flag| flag.commands.contains(&command))
                .flat_map(|flag| [Some(flag.long.to_string()), flag.short.map(String::from)])
                .flatten()
                .collect();
            let count = names.len();
            names.sort();
            names.dedup();
            assert_eq!(names.len(), count);
        }
    }
}
