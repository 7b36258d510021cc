//! What `--help` and `--version` print.
#![forbid(unsafe_code)]

use std::fmt::Write;

use crate::args::{Command, Flag, FLAGS};

// A line for the list of commands, what follows the command's name, and what it does.
struct Words {
    command: Command,
    line: &'static str,
    usage: &'static str,
    text: &'static str,
}

const WORDS: [Words; 9] = [
    Words {
        command: Command::Compile,
        line: "turn text rows into a sheet",
        usage: "[-o PLACE] [FILE...]",
        text: "Turns text rows into a sheet, with the shorter trailer, since rows are in units of 1/64.\n\
               A sheet that is given comes out as it is. Bytes of a sheet are not written to a terminal\n\
               unless -o - says so.",
    },
    Words {
        command: Command::Print,
        line: "turn a sheet into text rows",
        usage: "[-o PLACE] [FILE...]",
        text: "Turns a sheet into text rows, which compile to that very sheet. A sheet with the longer\n\
               trailer, which states its unit, has none. Rows that are given come out in the order and\n\
               form that a sheet's rows have.",
    },
    Words {
        command: Command::List,
        line: "list the cheapest readings",
        usage: "[-n COUNTS] [--json] [FILE...]",
        text: "Lists the cheapest readings: how many there are and how many entries the search\n\
               has taken; then for each its rank, its cost as a decimal and in the sheet's own\n\
               units, 64ths or 256ths, the node where it ends, and the input labels of its links.\n\n\
               With several counts, as in -n 3,10, each list is found by itself. The longest is\n\
               printed; a line in it, after row 3 or the last, says how many readings the list for 3\n\
               has, and how many entries its search has taken. Below the longest stand the rows of the\n\
               list for 3 at the ranks where it has another reading, by its links; where there are\n\
               none, the list for 3 is the head of the longest.\n\n\
               The costs listed for a smaller count are the first of those for a larger one, or\n\
               all where there are fewer, as is proved. The shorter list may hold other readings of\n\
               its last cost; of each lower cost it holds the same.",
    },
    Words {
        command: Command::Best,
        line: "find the cheapest reading",
        usage: "[--json] [FILE...]",
        text: "Finds the cheapest reading, printed as by list. It costs what heads every list, as is\n\
               proved; where several cost the same it may be another than the first of a longer list.",
    },
    Words {
        command: Command::Distances,
        line: "find the distance of each node",
        usage: "[--json] [FILE...]",
        text:
            "Finds for each node the least cost of a way from the start to it, as a decimal and\n\
               in the sheet's own units, 64ths or 256ths, or that it is unreached; up to the\n\
               highest node that is reached or that a link, barred or not, leads to from a\n\
               reached one.",
    },
    Words {
        command: Command::Both,
        line: "write the sheet of what two machines both allow",
        usage: "[-o PLACE] FIRST SECOND",
        text: "Writes the sheet of what two machines both allow, such as those of two probes in one\n\
               oven. Its readings are the pairs of a reading of each with the same labels, and cost\n\
               their sum. Its node for i and j is i times the second's number of nodes, plus j. No\n\
               label may be 0 or differ between input and output, and both must be in the same unit.\n\
               Its trailer is the first's. Bytes of a sheet are not written to a terminal unless -o -\n\
               says so.",
    },
    Words {
        command: Command::Split,
        line: "write the two parts of a machine that narrows to a node",
        usage: "FILE NODE -o FIRST SECOND",
        text: "Writes the two parts of a machine that narrows to a node, as where preheat ends: the\n\
               nodes up to it, and the nodes from it on. FIRST has that node final at weight 0 and\n\
               without links. SECOND starts there, and its nodes count from 0. The costs of the whole\n\
               list are the least sums of one cost from each part's list. Link k of FIRST is link k of\n\
               the whole, and link k of SECOND is link L + k, where FIRST has L links. Both have the\n\
               trailer of the whole.",
    },
    Words {
        command: Command::Draw,
        line: "draw the machine, or the list laid over it",
        usage: "[-n COUNT] [-T dot|svg|png] [-o PLACE] [FILE...]",
        text: "Draws the machine in Graphviz's language, or with its program dot as SVG or PNG.\n\
               Links and final nodes that are barred, by a weight of Infinity, are dashed.\n\
               With -n the links of the cheapest readings are coloured by rank, and a legend\n\
               has the ranks and costs, each as a decimal and in the sheet's own units.",
    },
    Words {
        command: Command::Check,
        line: "say whether a search accepts it, or what is wrong and where",
        usage: "[--json] [FILE...]",
        text: "Says whether a search accepts the input, with its counts, its start, its unit and its\n\
               trailer; if not, with which number it is refused, what that means, and where the fault\n\
               is: the row and column of a text, the link, node or field of a sheet. The place is found\n\
               apart from the library, and its number is compared with the library's.",
    },
];

const JSON_LIST: &str = "\
fields with --json:
  input     the input's name, - for standard input
  unit      how many of its units are 1: 64 or 256
  readings  how many readings are listed
  taken     how many entries the search has taken
  list      for each reading rank, cost (a decimal, as text), units (the cost as a
            number of them), end (a node), links (numbers in the sheet), ilabels and
            olabels
";

const JSON_SHORTER: &str =
    "  shorter   with counts that differ, for each but the largest: count, readings, taken, and
            differ, its readings, as in list, at the ranks where list has another
";

const JSON_DISTANCES: &str = "\
fields with --json:
  input      the input's name, - for standard input
  unit       how many of its units are 1: 64 or 256
  distances  for each node node, cost (a decimal, as text) and units (the cost as a
             number of them); both are null where it is unreached
";

const JSON_CHECK: &str = "\
fields with --json:
  input     the input's name, - for standard input
  form      rows or sheet
  accepted  true or false
  nodes, links, finals, start, unit, trailer, rows    of one that is accepted: its
            counts, its start or null, how many of its units are 1, the bytes of its
            trailer or null of rows, and whether it has rows
  refused, meaning, place, row, column, link, node, field    of one that is refused:
            the number, what it means, the place and what is wrong there in words;
            then, as far as they name it, row and column from 1, the numbers of a
            link and a node from 0, and the field of a sheet
";

const JSON_REFUSED: &str =
    "of an input that is refused: input, refused (the number), meaning, place\n";

const STATUS: &str = "\
Status: 0; 1 where an input is refused; 2 for bad usage, or an input or output that
cannot be read or written.
";

const INPUTS: &str = "\
Each FILE holds text rows or a sheet; which, the command sees by itself. Without one, or
with -, it is standard input.
";

const TWO_INPUTS: &str = "\
FIRST and SECOND each hold text rows or a sheet; which, the command sees by itself. One of
them may be -, which is standard input.
";

const ONE_INPUT: &str = "\
FILE holds text rows or a sheet; which, the command sees by itself. It may be -, which is
standard input.
";

fn json_fields(command: Command) -> &'static [&'static str] {
    match command {
        Command::List => &[JSON_LIST, JSON_SHORTER, JSON_REFUSED],
        Command::Best => &[JSON_LIST, JSON_REFUSED],
        Command::Distances => &[JSON_DISTANCES, JSON_REFUSED],
        Command::Check => &[JSON_CHECK],
        _ => &[],
    }
}

/// The help for a command, or for the whole.
pub(crate) fn text(command: Option<Command>) -> String {
    let asked = WORDS.iter().find(|words| Some(words.command) == command);
    asked.map_or_else(help_of_all, help_of)
}

/// The name and the version.
pub(crate) fn version() -> String {
    format!("yeldmur {}\n", env!("CARGO_PKG_VERSION"))
}

fn help_of_all() -> String {
    let mut text = String::from(
        "usage: yeldmur COMMAND [OPTION...] [FILE...]\n\n\
         Proved lists of the cheapest readings of a machine, from text rows or a sheet.\n\n\
         commands:\n",
    );
    for words in &WORDS {
        // a String takes all that is written to it
        let _ = writeln!(text, "  {:<10} {}", words.command.name(), words.line);
    }
    let alone = FLAGS.iter().filter(|flag| flag.commands.is_empty());
    let help = FLAGS.iter().filter(|flag| flag.long == "help");
    text.push_str("\noptions (yeldmur COMMAND --help has those of a command):\n");
    text.extend(help.chain(alone).map(line_of));
    text + "\n" + INPUTS + STATUS
}

fn help_of(words: &Words) -> String {
    let (command, usage, text) = (words.command, words.usage, words.text);
    let name = command.name();
    let inputs = match command {
        Command::Both => TWO_INPUTS,
        Command::Split => ONE_INPUT,
        _ => INPUTS,
    };
    let mut help = format!("usage: yeldmur {name} {usage}\n\n{text}\n\n{inputs}\noptions:\n");
    let flags = FLAGS.iter().filter(|flag| flag.commands.contains(&command));
    help.extend(flags.map(line_of));
    let fields = json_fields(command).concat();
    if !fields.is_empty() {
        help = help + "\n" + &fields;
    }
    help + "\n" + STATUS
}

fn line_of(flag: &Flag) -> String {
    let short = flag.short.map_or(String::from("   "), |s| format!("-{s},"));
    let value = flag
        .value
        .map_or(String::new(), |value| format!(" {value}"));
    let names = format!("{short} --{}{value}", flag.long);
    // names that are too long for their column have a line of their own
    if names.len() > 20 {
        return format!("  {names}\n{:23}{}\n", "", flag.help);
    }
    format!("  {names:<20} {}\n", flag.help)
}

#[cfg(test)]
mod tests {
    use super::*;
    use crate::args::COMMANDS;

    #[test]
    fn every_option_of_a_command_is_named() {
        for command in COMMANDS {
            let name = command.name();
            let help = text(Some(command));
            assert!(help.starts_with(&format!("usage: yeldmur {name} ")));
            for flag in &FLAGS {
                let named = help.contains(&format!("--{}", flag.long));
                let has = FLAGS
                    .iter()
                    .any(|other| other.long == flag.long && other.commands.contains(&command));
                assert_eq!(named, has, "{name} --{}", flag.long);
            }
            assert!(help.lines().all(|line| line.len() <= 92), "{name}");
        }
    }

    #[test]
    fn every_command_is_named() {
        let help = text(None);
        for command in COMMANDS {
            assert!(help.contains(&format!("\n  {} ", command.name())));
        }
        assert!(help.contains("--version"));
    }
}
