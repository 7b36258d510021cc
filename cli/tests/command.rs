//! Runs of the command: inputs, outputs, threads, pipes and exit statuses.
#![forbid(unsafe_code)]

mod common;

use std::fs::{self, File};
use std::io::Write;
use std::os::unix::fs::{symlink, PermissionsExt};
use std::process::Stdio;

use common::{bytes, chain, command, is_json, run, run_on, stating, Folder, Ran, Random, A};

// Laid out by hand, apart from the library.
fn sheet_a() -> Vec<u8> {
    #[rustfmt::skip]
    let words = [
        1, 1, 0x3F80_0000, 1, 2, 2, 0x3F00_0000, 2, 3, 3, 0x3E80_0000, 3, 5, 5, 0, 2, 4, 4, 0x3F40_0000, 3,
        2, 0, 0, 2, 0, 0, 1, 0, 0, 0, 1, 0x3F00_0000, 0, 80, 4, 5, 0,
    ];
    bytes(&words)
}

#[test]
fn rows_to_a_sheet_and_back() {
    let folder = Folder::new("both_ways");
    let rows = folder.file("a.txt", A);
    let sheet = folder.path("a.sheet");
    run(&["compile", "-o", &sheet, &rows], "").ok();
    assert_eq!(folder.read("a.sheet"), sheet_a());
    let printed = run(&["print", &sheet], "").ok();
    assert_eq!(printed.text(), A.replace(' ', "\t"));
    // a sheet compiles to itself, and rows print as a sheet's rows
    assert_eq!(run(&["compile"], sheet_a()).ok().out, sheet_a());
    assert_eq!(run(&["print"], A).ok().out, printed.out);
}

#[test]
fn every_command_takes_both_forms() {
    let folder = Folder::new("both_forms");
    let files = [folder.file("rows", A), folder.file("sheet", sheet_a())];
    for arguments in [
        &["list"][..],
        &["list", "-n", "2", "--json"],
        &["list", "-n", "1,3"],
        &["best"],
        &["distances"],
        &["draw"],
        &["draw", "-n", "3"],
        &["check"],
        &["print"],
        &["compile"],
    ] {
        let of = |file: &str| {
            let on_file = run(&[arguments, &[file]].concat(), "").ok();
            on_file.out
        };
        let [rows, sheet] = files.each_ref().map(|file| of(file));
        let named = |bytes: Vec<u8>| {
            let text = String::from_utf8_lossy(&bytes).replace("sheet", "rows");
            text.replace(", trailer of 20 bytes", "")
        };
        assert_eq!(named(rows), named(sheet), "{arguments:?}");
    }
}

#[test]
fn the_longer_trailer() {
    let folder = Folder::new("the_longer_trailer");
    for unit in [64, 256] {
        let sheet = folder.file("sheet", stating(unit, &sheet_a()));
        // it comes out as it is, and has no rows
        assert_eq!(run(&["compile", &sheet], "").ok().out, folder.read("sheet"));
        let printed = run(&["print", &sheet], "");
        assert_eq!((printed.status, printed.text()), (1, ""));
        let said = "refused 9: a sheet that has no rows: trailer: it has 24 bytes, and only sheets whose trailer has 20 have rows";
        assert_eq!(printed.err, format!("yeldmur: {sheet}: {said}\n"));
    }
}

#[test]
fn standard_input() {
    let listed = run(&["list"], A).ok();
    assert_eq!(run(&["list", "-"], A).ok().out, listed.out);
    let folder = Folder::new("standard_input");
    let file = folder.file("b.txt", "0\n");
    let both = run(&["check", &file, "-"], A).ok();
    let verdicts: Vec<&str> = both.text().lines().collect();
    assert_eq!(
        verdicts[0],
        format!("{file}: accepted: rows, 1 node, 0 links, 1 final, start 0, unit 1/64")
    );
    assert_eq!(
        verdicts[1],
        "standard input: accepted: rows, 4 nodes, 5 links, 1 final, start 0, unit 1/64"
    );
}

#[test]
fn bad_usage() {
    for (arguments, said) in [
        (
            &[][..],
            "yeldmur: which command? yeldmur --help names them\n",
        ),
        (
            &["lists"],
            "yeldmur: no command lists: yeldmur --help names them\n",
        ),
        (
            &["list", "-n", "65"],
            "yeldmur: --count: 65 is no number from 0 to 64\n",
        ),
        (
            &["list", "-n", "3,65"],
            "yeldmur: --count: 3,65: 65 is no number from 0 to 64\n",
        ),
        (
            &["list", "-n", "3,", "10"],
            "yeldmur: --count: 3,: part 2 is empty\n",
        ),
        (&["list", "-n"], "yeldmur: --count needs its COUNTS\n"),
        (
            &["draw", "-n", "3,10"],
            "yeldmur: --count: 3,10: draw takes one count alone\n",
        ),
        (
            &["list", "-x"],
            "yeldmur: no option -x here: the command's --help names them\n",
        ),
        (
            &["draw", "-T", "gif"],
            "yeldmur: --form: gif is none of dot, svg and png\n",
        ),
        (&["check", "-o"], "yeldmur: --output needs its PLACE\n"),
        (
            &["best", "-", "-"],
            "yeldmur: standard input is named twice\n",
        ),
        (
            &["both", "a"],
            "yeldmur: both takes two inputs, FIRST and SECOND\n",
        ),
        (
            &["both", "-", "-"],
            "yeldmur: standard input is named twice\n",
        ),
        (
            &["both", "-o", "/", "a", "b"],
            "yeldmur: / is a folder, and the one sheet needs a file\n",
        ),
        (
            &["compile", "a", "b"],
            "yeldmur: several inputs need a folder for their answers: name one with -o\n",
        ),
        (
            &["print", "-o", "x", "a", "b"],
            "yeldmur: several inputs need a folder for their answers: name one with -o\n",
        ),
    ] {
        let ran = run(arguments, A);
        assert_eq!((ran.status, ran.text(), ran.err.as_str()), (2, "", said));
    }
}

// Sheet A with itself, laid out by hand: 16 nodes, and five links whose weights are twice those of Sheet A.
fn a_with_itself() -> Vec<u8> {
    #[rustfmt::skip]
    let links = [
        1, 1, 0x4000_0000, 5, 2, 2, 0x3F80_0000, 10, 3, 3, 0x3F00_0000, 15, 5, 5, 0, 10, 4, 4, 0x3FC0_0000, 15,
    ];
    let nodes = (0..16).flat_map(|node| match node {
        0 | 5 => [2, 0, 0],
        10 => [1, 0, 0],
        15 => [0, 1, 0x3F80_0000],
        _ => [0, 0, 0],
    });
    let words: Vec<u32> = links.into_iter().chain(nodes).collect();
    bytes(&[&words[..], &[0, 80, 16, 5, 0]].concat())
}

#[test]
fn what_both_allow() {
    let folder = Folder::new("what_both_allow");
    let (rows, sheet) = (folder.file("a", A), folder.file("a.sheet", sheet_a()));
    let whole = a_with_itself();
    for (first, second) in [
        (&rows, &rows),
        (&rows, &sheet),
        (&sheet, &rows),
        (&sheet, &sheet),
    ] {
        assert_eq!(run(&["both", first, second], "").ok().out, whole);
    }
    assert_eq!(run(&["both", "-", &sheet], A).ok().out, whole);
    assert_eq!(run(&["both", &rows, "-"], sheet_a()).ok().out, whole);
    let output = folder.path("both.sheet");
    run(&["both", "-o", &output, "--", &rows, &sheet], "").ok();
    assert_eq!(folder.read("both.sheet"), whole);
    let listed = run(&["list", &output], "").ok();
    assert!(listed.text().starts_with("3 readings, "));
    // an input may be its own output
    run(&["both", "-o", &sheet, &sheet, &rows], "").ok();
    assert_eq!(folder.read("a.sheet"), whole);
}

#[test]
fn both_have_the_first_trailer() {
    let folder = Folder::new("both_have_the_first_trailer");
    let rows = folder.file("rows", A);
    let sheet = folder.file("sheet", sheet_a());
    let [longer, fine] = [64, 256].map(|unit| {
        let name = unit.to_string();
        folder.file(&name, stating(unit, &sheet_a()))
    });
    let whole = a_with_itself();
    for (first, second, due) in [
        (&sheet, &longer, whole.clone()),
        (&rows, &longer, whole.clone()),
        (&longer, &sheet, stating(64, &whole)),
        (&longer, &rows, stating(64, &whole)),
        (&longer, &longer, stating(64, &whole)),
        (&fine, &fine, stating(256, &whole)),
    ] {
        assert_eq!(run(&["both", first, second], "").ok().out, due);
    }
    let output = folder.file("out", "as it was");
    for (first, second) in [
        (&fine, &rows),
        (&fine, &sheet),
        (&fine, &longer),
        (&rows, &fine),
        (&sheet, &fine),
        (&longer, &fine),
    ] {
        let ran = run(&["both", "-o", &output, first, second], "");
        assert_eq!((ran.status, ran.text()), (1, ""));
        // it is about the second
        let said = format!("yeldmur: {second}: refused 14: a unit that does not fit: ");
        assert!(ran.err.starts_with(&said), "{}", ran.err);
    }
    assert_eq!(folder.read("out"), b"as it was");
}

// The order matters: the node for i and j is i times the second's nodes, plus j.
#[test]
fn the_first_and_the_second() {
    let folder = Folder::new("the_first_and_the_second");
    let two = folder.file("two", "0 1 7 7 0.5\n1\n");
    let three = folder.file("three", "1 2 7 7\n2\n");
    let printed = |first: &str, second: &str| {
        let both = run(&["both", first, second], "").ok().out;
        run(&["print"], both).ok().text().to_string()
    };
    assert_eq!(printed(&two, &three), "1\t5\t7\t7\t0.5\n5\n");
    assert_eq!(printed(&three, &two), "2\t5\t7\t7\t0.5\n5\n");
}

#[test]
fn no_answer_for_two() {
    let folder = Folder::new("no_answer_for_two");
    let output = folder.file("out", "as it was");
    let (good, bad) = (folder.file("good", A), folder.file("bad", "0 1 1 1 0.3\n"));
    let missing = folder.path("missing");
    // what cannot be read counts before what is refused, on either side
    for files in [[&bad, &missing], [&missing, &bad], [&good, &missing]] {
        let ran = run(&["both", "-o", &output, files[0], files[1]], "");
        assert_eq!((ran.status, ran.text()), (2, ""));
        let said = format!("yeldmur: {missing}: cannot be read: ");
        assert!(ran.err.starts_with(&said) && ran.err.lines().count() == 1);
    }
    let ran = run(&["both", "-o", &output, &good, &bad], "");
    assert_eq!(ran.status, 1);
    assert!(ran.err.starts_with(&format!("yeldmur: {bad}: refused 4: ")));
    let ran = run(&["both", "-o", &output, "-", &good], "0 1 0 0\n");
    assert_eq!((ran.status, ran.err.as_str()), (1, "yeldmur: standard input: refused 10: a label that is 0 or differs between input and output: row 1, column 5: the input label is 0\n"));
    assert_eq!(folder.read("out"), b"as it was");
    let full = run(&["both", "-o", "/dev/full", &good, &good], "");
    assert_eq!(full.status, 2);
    assert!(full
        .err
        .starts_with("yeldmur: /dev/full: cannot be written: "));
    let closed = with_closed_pipe(&["both", &good, "-"], A.as_bytes());
    assert_eq!((closed.status, closed.err.as_str()), (0, ""));
}

// As large as it may be: 2,048 nodes, and 16,384 links.
#[test]
fn the_largest_of_two() {
    let folder = Folder::new("the_largest_of_two");
    let wide = folder.file("wide", "0 1 7 7\n".repeat(128) + "1023\n");
    let two = folder.file("two", "0 1 7 7 0.5\n".repeat(128) + "1\n");
    let both = run(&["both", &wide, &two], "").ok().out;
    assert_eq!(both.len(), 286_740);
    let checked = run(&["check"], both).ok();
    let verdict = "standard input: accepted: sheet, 2048 nodes, 16384 links, 1 final, start 0, unit 1/64, trailer of 20 bytes\n";
    assert_eq!(checked.text(), verdict);
}

// Laid out by hand: three links to node 1, two on to node 2.
const DIAMOND: &str = "0 1 7 7 1\n0 1 8 8 0.5\n0 1 9 9 0.75\n1 2 7 7 0.25\n1 2 8 8 2\n2 0.5\n";

fn parts_of_the_diamond() -> [Vec<u8>; 2] {
    #[rustfmt::skip]
    let first = [
        7, 7, 0x3F80_0000, 1, 8, 8, 0x3F00_0000, 1, 9, 9, 0x3F40_0000, 1,
        3, 0, 0, 0, 1, 0, 0, 48, 2, 3, 0,
    ];
    #[rustfmt::skip]
    let second = [
        7, 7, 0x3E80_0000, 1, 8, 8, 0x4000_0000, 1,
        2, 0, 0, 0, 1, 0x3F00_0000, 0, 32, 2, 2, 0,
    ];
    [bytes(&first), bytes(&second)]
}

#[test]
fn two_parts() {
    let folder = Folder::new("two_parts");
    let rows = folder.file("diamond", DIAMOND);
    let sheet = folder.path("diamond.sheet");
    run(&["compile", "-o", &sheet, &rows], "").ok();
    let [first, second] = ["first", "second"].map(|name| folder.path(name));
    let whole = parts_of_the_diamond();
    let written = |arguments: &[&str], input: &str| {
        assert_eq!(run(arguments, input).ok().text(), "");
        let parts = ["first", "second"].map(|name| folder.read(name));
        assert_eq!(parts, whole, "{arguments:?}");
        folder.file("first", "");
        folder.file("second", "");
    };
    written(&["split", &rows, "1", "-o", &first, &second], "");
    written(&["split", "-o", &first, &second, &sheet, "1"], "");
    written(&["split", "-", "1", "-o", &first, &second], DIAMOND);
    let output = format!("--output={first}");
    written(&["split", &output, &second, "--", &rows, "1"], "");
    // either may go to standard output
    for (place, places) in [["-", &second], [&first, "-"]].iter().enumerate() {
        let ran = run(&["split", &rows, "1", "-o", places[0], places[1]], "").ok();
        assert_eq!(ran.out, whole[place]);
    }
    let listed = run(&["list", &first, &second], "").ok();
    assert_eq!(listed.text().matches(" readings, ").count(), 2);
    // an input may be an output
    run(&["split", &sheet, "1", "-o", &sheet, &second], "").ok();
    assert_eq!(folder.read("diamond.sheet"), whole[0]);
}

#[test]
fn two_parts_have_the_trailer_of_the_whole() {
    let folder = Folder::new("trailers_of_parts");
    let sheet = run(&["compile"], DIAMOND).ok().out;
    let [first, second] = ["first", "second"].map(|name| folder.path(name));
    for unit in [64, 256] {
        let whole = folder.file("whole", stating(unit, &sheet));
        run(&["split", &whole, "1", "-o", &first, &second], "").ok();
        let parts = ["first", "second"].map(|name| folder.read(name));
        assert_eq!(
            parts,
            parts_of_the_diamond().map(|part| stating(unit, &part))
        );
    }
}

#[test]
fn no_parts() {
    let folder = Folder::new("no_parts");
    let files = ["first", "second"].map(|name| folder.file(name, "as it was"));
    let [first, second] = files.each_ref().map(String::as_str);
    let a = folder.file("a", A);
    let missing = folder.path("missing");
    let place = folder.path("");
    for (arguments, said) in [
        (
            &["split", &missing, "1"][..],
            "split needs two files for the parts: -o FIRST SECOND",
        ),
        (
            &["split", &a, "-o", first, second],
            "split takes an input and a node, FILE and NODE",
        ),
        (
            &["split", &a, "-", "-o", first, second],
            "NODE: - is no number from 0 to 4294967295",
        ),
        (
            &["split", &a, "1.5", "-o", first, second],
            "NODE: 1.5 is no number from 0 to 4294967295",
        ),
        (
            &["split", &a, "3", "-o", first],
            "--output needs its FIRST SECOND",
        ),
        (
            &["split", &a, "3", "-o", first, first],
            "the two parts need two places",
        ),
        (
            &["split", &a, "3", "-o", "-", "-"],
            "the two parts need two places",
        ),
    ] {
        let ran = run(arguments, "");
        assert_eq!((ran.status, ran.text()), (2, ""));
        assert_eq!(ran.err, format!("yeldmur: {said}\n"));
    }
    for places in [[first, &place], [&place, second]] {
        let ran = run(&["split", &a, "3", "-o", places[0], places[1]], "");
        let said = format!("yeldmur: {place} is a folder, and the one sheet needs a file\n");
        assert_eq!((ran.status, ran.err), (2, said));
    }
    let ran = run(&["split", &missing, "3", "-o", first, second], "");
    assert_eq!(ran.status, 2);
    assert!(ran
        .err
        .starts_with(&format!("yeldmur: {missing}: cannot be read: ")));
    let ran = run(&["split", "-", "1", "-o", first, second], A);
    let said = "yeldmur: standard input: refused 13: a machine that does not narrow to the node: row 2, column 3: leads from node 0 past node 1 to node 2\n";
    assert_eq!((ran.status, ran.text(), ran.err.as_str()), (1, "", said));
    for name in ["first", "second"] {
        assert_eq!(folder.read(name), b"as it was");
    }
    // where one cannot be opened the other stays as it was, and the input that it may be
    let nowhere = folder.path("nowhere/part");
    for places in [[&a, &nowhere], [&nowhere, &a]] {
        let ran = run(&["split", &a, "3", "-o", places[0], places[1]], "");
        let said = format!("yeldmur: {nowhere}: cannot be written: ");
        assert_eq!(ran.status, 2);
        assert!(ran.err.starts_with(&said));
        assert_eq!(folder.read("a"), A.as_bytes());
    }
    for places in [["/dev/full", second], [first, "/dev/full"]] {
        let ran = run(&["split", &a, "3", "-o", places[0], places[1]], "");
        assert_eq!(ran.status, 2);
        let said = "yeldmur: /dev/full: cannot be written: ";
        assert!(ran.err.starts_with(said));
    }
    let closed = with_closed_pipe(&["split", "-", "3", "-o", "-", second], A.as_bytes());
    assert_eq!((closed.status, closed.err.as_str()), (0, ""));
}

#[test]
fn one_place_for_two_parts() {
    let folder = Folder::new("one_place");
    fs::create_dir(folder.path("sub")).unwrap();
    folder.file("x", "as it was");
    fs::hard_link(folder.path("x"), folder.path("hard")).unwrap();
    // of what is not there yet, too
    for (to, link) in [("x", "y"), ("new", "z"), ("../z", "sub/z"), (".", "here")] {
        symlink(to, folder.path(link)).unwrap();
    }
    let split = |first: &str, second: &str| {
        let mut command = command(&["split", "-", "3", "-o", first, second]);
        command.current_dir(folder.path(""));
        run_on(command, A.as_bytes())
    };
    let full = folder.path("x");
    for (one, other) in [
        ("x", "./x"),
        ("x", "sub/../x"),
        ("x", "here/x"),
        ("x", &full),
        ("x", "y"),
        ("x", "hard"),
        ("new", "./new"),
        ("new", "here/new"),
        ("new", "z"),
        ("z", "sub/z"),
        ("-", "/dev/stdout"),
    ] {
        for (first, second) in [(one, other), (other, one)] {
            let ran = split(first, second);
            let said = "yeldmur: the two parts need two places\n";
            assert_eq!((ran.status, ran.text()), (2, ""), "{first} {second}");
            assert_eq!(ran.err, said, "{first} {second}");
        }
    }
    assert_eq!(folder.read("x"), b"as it was");
    assert!(!folder.has("new"));
    // one name in two folders, and a file that is named as standard output is
    for (first, second) in [("new", "sub/new"), ("x", "sub/x"), ("-", "./-")] {
        split(first, second).ok();
    }
    let parts = ["x", "sub/x"].map(|name| folder.read(name));
    assert_eq!(parts, ["new", "sub/new"].map(|name| folder.read(name)));
    assert_eq!(folder.read("-"), parts[1]);
    // the gate takes no links in the checkout
    fs::remove_dir_all(folder.path("")).unwrap();
}

#[test]
fn version() {
    let said = run(&["--version"], "").ok();
    assert_eq!(
        said.text(),
        format!("yeldmur {}\n", env!("CARGO_PKG_VERSION"))
    );
}

#[test]
fn statuses() {
    let folder = Folder::new("statuses");
    let (good, bad) = (folder.file("good", A), folder.file("bad", "0 1 1 1 0.3\n"));
    let missing = folder.path("missing");
    assert_eq!(run(&["best", &good], "").status, 0);
    assert_eq!(run(&["best", &good, &bad, &good], "").status, 1);
    assert_eq!(run(&["check", &bad], "").status, 1);
    let mixed = run(&["best", &missing, &bad, &good], "");
    assert_eq!(mixed.status, 2);
    let said: Vec<&str> = mixed.err.lines().collect();
    assert!(said[0].starts_with(&format!("yeldmur: {missing}: cannot be read: ")));
    assert_eq!(
        said[1],
        format!("yeldmur: {bad}: refused 4: a weight off the grid: row 1, column 9: 0.3 is no whole number of sixty-fourths; 0.296875 and 0.3125 are the nearest")
    );
    // the good one is answered all the same
    assert!(mixed
        .text()
        .starts_with(&format!("==> {good} <==\n1 reading")));
    assert_eq!(run(&["list", &folder.path("")], "").status, 2);
}

#[test]
fn a_refusal_leaves_the_file() {
    let folder = Folder::new("leaves_the_file");
    let output = folder.path("x.sheet");
    assert_eq!(run(&["compile", "-o", &output], "0 1\n\n").status, 1);
    assert!(!folder.has("x.sheet"));
    folder.file("x.sheet", "as it was");
    assert_eq!(run(&["compile", "-o", &output], "0 1\n\n").status, 1);
    assert_eq!(folder.read("x.sheet"), b"as it was");
    // an input may be its own output
    let rows = folder.file("x.rows", A);
    run(&["print", "-o", &rows, &rows], "").ok();
    assert_eq!(folder.read("x.rows"), A.replace(' ', "\t").into_bytes());
}

#[test]
fn a_folder_of_answers() {
    let folder = Folder::new("folder");
    let inputs = [folder.file("a.txt", A), folder.file("b.rows", "0 7\n")];
    let [a, b] = inputs.each_ref().map(String::as_str);
    let place = folder.path("");
    run(&["compile", "-o", &place, a, b], "").ok();
    run(&["draw", "-j", "2", "-o", &place, a, b], "").ok();
    run(&["list", "--json", "-o", &place, a], "").ok();
    run(&["list", "-o", &place, "-"], A).ok();
    assert_eq!(folder.read("a.sheet"), sheet_a());
    assert_eq!(folder.read("b.sheet"), run(&["compile"], "0 7\n").ok().out);
    assert_eq!(folder.read("b.dot"), run(&["draw"], "0 7\n").ok().out);
    assert!(folder.has("a.dot") && folder.has("a.json"));
    // no name heads an answer in a file of its own
    run(&["list", "-o", &place, a, b], "").ok();
    assert_eq!(folder.read("b.txt"), run(&["list"], "0 7\n").ok().out);
    assert_eq!(folder.read("stdin.txt"), run(&["list"], A).ok().out);
    let again = run(&["compile", "-o", &place, a, a], "");
    assert_eq!(
        (again.status, again.err.as_str()),
        (2, "yeldmur: two inputs have the name a.sheet there\n")
    );
}

#[test]
fn several_answers_in_one_file() {
    let folder = Folder::new("one_file");
    let (a, output) = (folder.file("a", A), folder.path("out"));
    run(&["list", "-o", &output, &a, &a], "").ok();
    assert_eq!(folder.read("out"), run(&["list", &a, &a], "").ok().out);
    assert_eq!(
        run(&["list", "-o", "-", &a, &a], "").ok().out,
        folder.read("out")
    );
}

// Inputs that take very different times: every answer in its place, whatever the number of threads.
#[test]
fn order_of_answers() {
    let folder = Folder::new("order");
    let wide = |width: usize| -> String {
        let row = |label: usize| format!("0 1 {label} {label} {}\n", label % 100);
        (1..=width).map(row).collect::<String>() + "1\n"
    };
    let files: Vec<String> = (0..24)
        .map(|i| folder.file(&format!("{i:02}"), wide(if i % 5 == 0 { 9_000 } else { i })))
        .collect();
    let files: Vec<&str> = files.iter().map(String::as_str).collect();
    let of = |jobs: &'static str, form: &'static [&'static str]| {
        let first = [&["list", "-n", "64", "--jobs", jobs], form].concat();
        run(&[first.as_slice(), &files].concat(), "")
    };
    let alone = of("1", &[]).ok();
    assert_eq!(alone.text().matches("==> ").count(), 24);
    for jobs in ["2", "3", "24", "1000"] {
        assert_eq!(of(jobs, &[]).ok().out, alone.out);
    }
    let documents = of("4", &["--json"]).ok();
    for (line, file) in documents.text().lines().zip(&files) {
        assert!(line.starts_with(&format!("{{\"input\":\"{file}\"")));
    }
}

#[test]
fn documents() {
    let folder = Folder::new("documents");
    let files = [
        folder.file("a", A),
        folder.file("b \"\\\t\u{e9}", "0 1 1 1\n1\n1\n"),
        folder.file("c", sheet_a()),
        folder.file("d", [0; 19]),
        folder.path("missing"),
    ];
    let files: Vec<&str> = files.iter().map(String::as_str).collect();
    for command in ["list", "best", "distances", "check"] {
        let ran = run(&[&[command, "--json"], files.as_slice()].concat(), "");
        assert_eq!(ran.status, 2);
        let lines: Vec<&str> = ran.text().lines().collect();
        assert_eq!(lines.len(), files.len());
        assert!(lines.iter().all(|line| is_json(line)), "{lines:?}");
        assert!(lines[1].contains("\"refused\":8,"));
        assert!(lines[4].contains("\"error\":\"cannot be read: "));
    }
    assert!(!is_json("{\"a\":01}") && !is_json("[1,]") && !is_json("{}x") && !is_json("\"\t\""));
}

// A machine whose readings mostly cost the same; or never, since each link weighs more than all before it. Its nodes have names of unequal
// width, and links beside each other often the same labels.
fn tied_or_not(random: &mut Random, tied: bool) -> Vec<u8> {
    let nodes = [0, 1, 9, 10, 100];
    let mut rows = String::new();
    for link in 0..2 + random.below(10) {
        let source = if link == 0 { 0 } else { random.below(4) };
        let next = source + 1 + random.below(4 - source);
        let weight = match tied {
            true => random.one_of(&["0", "0", "0", "-0.5"]).to_string(),
            false => (f64::from(1 << link) / 64.0).to_string(),
        };
        let [from, to, label] = [nodes[source], nodes[next], random.below(3)];
        rows += &format!("{from} {to} {label} 1 {weight}\n");
    }
    for node in nodes {
        rows += &random.one_of(&[String::new(), format!("{node}\n")]);
    }
    let sheet = run(&["compile"], &rows).ok().out;
    random.one_of(&[rows.into_bytes(), stating(256, &sheet), sheet])
}

// The answers to files, one for each.
fn answers(counts: &str, form: &[&str], files: &[&str]) -> Vec<String> {
    let ran = run(&[&["list", "-n", counts], form, files].concat(), "").ok();
    let answers: Vec<&str> = match form {
        [] => ran.text().split("==> ").skip(1).collect(),
        _ => ran.text().lines().collect(),
    };
    let headed = answers.into_iter().map(|answer| {
        let (_, below) = answer.split_once(" <==\n").unwrap_or(("", answer));
        below.to_string()
    });
    headed.collect()
}

fn fields(row: &str) -> String {
    row.split_whitespace().collect::<Vec<_>>().join(" ")
}

// Where the first four fields of a row end.
fn ends(row: &str) -> Vec<usize> {
    let blank = |at: usize| row.as_bytes().get(at).is_none_or(|&byte| byte == b' ');
    let ends = (1..=row.len()).filter(|&at| !blank(at - 1) && blank(at));
    ends.take(4).collect()
}

// What is printed for one count, without the names of its columns, put together from a text for several: the rows above the line of that
// list, and in their places its own from below the table. The ranks of these, too.
fn from_text(text: &str, count: usize) -> (Vec<String>, Vec<usize>) {
    let line = format!("-- list for {count}: ");
    let (above, below) = text.split_once(&line).unwrap();
    let mut rows: Vec<String> = above.lines().skip(2).map(fields).collect();
    rows.retain(|row| !row.starts_with("--"));
    rows.insert(0, below.lines().next().unwrap().to_string());
    let block = format!("\nlist for {count}: other readings of the same cost at these ranks:\n");
    let own = below.split_once(&block).map_or("", |(_, own)| own);
    let own = own.lines().take_while(|line| !line.starts_with("list "));
    let mut ranks = Vec::new();
    for row in own {
        let row = fields(row);
        let rank = row.split(' ').next().unwrap().parse().unwrap();
        rows[rank] = row;
        ranks.push(rank);
    }
    (rows, ranks)
}

fn readings(array: &str) -> Vec<&str> {
    let readings = array.split_inclusive("]}");
    readings
        .map(|reading| reading.trim_start_matches(','))
        .collect()
}

// The same of documents, byte for byte. What is said to differ does, and costs the same.
fn from_document(document: &str, count: usize) -> (String, Vec<usize>) {
    let (longest, shorter) = document.split_once(",\"shorter\":[").unwrap();
    let (start, longest) = longest.split_once("\"readings\":").unwrap();
    let list = longest.split_once(":[").unwrap().1;
    let mut list = readings(list.strip_suffix(']').unwrap());
    list.truncate(count);
    let shorter = shorter.strip_suffix("]}").unwrap();
    let own = shorter
        .split_once(&format!("{{\"count\":{count},"))
        .unwrap()
        .1;
    let own = own.split(",{\"count\":").next().unwrap();
    let own = own.strip_suffix("]}").unwrap();
    let (counts, own) = own.split_once(",\"differ\":[").unwrap();
    let mut ranks = Vec::new();
    for reading in readings(own) {
        let (cost, _) = reading.split_once(",\"end\":").unwrap();
        let rank: usize = cost[8..].split(',').next().unwrap().parse().unwrap();
        let other = std::mem::replace(&mut list[rank - 1], reading);
        assert!(other != reading && other.starts_with(&format!("{cost},")));
        ranks.push(rank);
    }
    let list = list.join(",");
    (format!("{start}{counts},\"list\":[{list}]}}"), ranks)
}

// The table of a text for several counts is that for the longest alone, and what stands below is aligned with it.
fn holds_longest(text: &str, alone: &str) {
    let rows = text.lines().filter(|line| !line.starts_with("--"));
    let table: Vec<&str> = rows
        .clone()
        .take_while(|row| !row.starts_with("list "))
        .collect();
    if table.len() == rows.clone().count() {
        assert_eq!(table.join("\n") + "\n", alone);
    }
    let due: Vec<String> = alone.lines().map(fields).collect();
    assert_eq!(table.iter().map(|row| fields(row)).collect::<Vec<_>>(), due);
    let rows: Vec<&str> = rows
        .skip(1)
        .filter(|row| !row.starts_with("list "))
        .collect();
    assert!(rows.iter().all(|row| ends(row) == ends(rows[0])), "{text}");
}

#[test]
fn several_counts_and_each_alone() {
    let folder = Folder::new("several_counts");
    let (mut random, tied) = (Random(8), |place: usize| place < 300);
    let files: Vec<String> = (0..450)
        .map(|place| folder.file(&place.to_string(), tied_or_not(&mut random, tied(place))))
        .collect();
    let files: Vec<&str> = files.iter().map(String::as_str).collect();
    let both = |counts: &str| [&[][..], &["--json"]].map(|form| answers(counts, form, &files));
    let ([texts, documents], [text, document]) = (both("2,8,0,5,1,3"), both("8"));
    for place in 0..files.len() {
        holds_longest(&texts[place], &text[place]);
        let (longest, _) = documents[place].split_once(",\"shorter\":").unwrap();
        assert_eq!(format!("{longest}}}"), document[place]);
        assert!(is_json(&documents[place]));
    }
    let mut seen = [0; 2];
    for count in [0, 1, 2, 3, 5] {
        let [text, document] = both(&count.to_string());
        for place in 0..files.len() {
            let lines = text[place].lines();
            let due = lines.clone().take(1).chain(lines.skip(2)).map(fields);
            let (rows, ranks) = from_text(&texts[place], count);
            assert_eq!(rows, due.collect::<Vec<_>>());
            let due = (document[place].clone(), ranks.clone());
            assert_eq!(from_document(&documents[place], count), due);
            assert!(ranks.is_empty() || tied(place));
            seen[usize::from(ranks.is_empty())] += usize::from(rows.len() > 1);
        }
    }
    // of those with a reading some differ, and some do not
    assert!(seen.iter().all(|&lists| lists >= 100), "{seen:?}");
}

#[test]
fn a_full_disk() {
    for arguments in [
        &["list"][..],
        &["compile"],
        &["--help"],
        &["check", "--json"],
        &["draw"],
    ] {
        let mut command = command(arguments);
        command.stdout(File::options().write(true).open("/dev/full").unwrap());
        let ran = run_on(command, A.as_bytes());
        assert_eq!(ran.status, 2, "{arguments:?}");
        assert!(ran
            .err
            .starts_with("yeldmur: standard output: cannot be written: No space left"));
    }
    // and the run ends there
    let folder = Folder::new("full_disk");
    let a = folder.file("a", A);
    let twice = run(&["list", "-o", "/dev/full", &a, &a], "");
    assert_eq!((twice.status, twice.err.lines().count()), (2, 1));
    let named = run(&["list", "-o", "/dev/full"], A);
    assert_eq!(named.status, 2);
    assert!(named
        .err
        .starts_with("yeldmur: /dev/full: cannot be written: No space left"));
    let nowhere = run(&["list", "-o", "/nowhere/at/all"], A);
    assert_eq!(nowhere.status, 2);
    assert!(nowhere
        .err
        .starts_with("yeldmur: /nowhere/at/all: cannot be written: "));
}

#[test]
fn messages_that_cannot_be_written() {
    let mut command = command(&["list"]);
    command.stderr(File::options().write(true).open("/dev/full").unwrap());
    assert_eq!(run_on(command, b"0 x\n").status, 1);
}

// The reader is gone before the first answer comes: the run ends quietly, with the status so far.
fn with_closed_pipe(arguments: &[&str], input: &[u8]) -> Ran {
    let mut child = command(arguments).spawn().unwrap();
    drop(child.stdout.take());
    child.stdin.take().unwrap().write_all(input).unwrap();
    child.wait_with_output().unwrap().into()
}

#[test]
fn a_closed_pipe() {
    for arguments in [
        &["list"][..],
        &["compile"],
        &["distances", "--json"],
        &["draw"],
    ] {
        let ran = with_closed_pipe(arguments, A.as_bytes());
        assert_eq!((ran.status, ran.err.as_str()), (0, ""), "{arguments:?}");
    }
    let folder = Folder::new("closed_pipe");
    let bad = folder.file("bad", "x\n");
    let ran = with_closed_pipe(&["best", &bad, "-"], A.as_bytes());
    assert_eq!(ran.status, 1);
    assert_eq!(ran.err.lines().count(), 1);
    // many inputs, of which only the first is ever answered
    let good = folder.file("good", chain(500, "1"));
    let many: Vec<&str> = std::iter::repeat_n(good.as_str(), 300).collect();
    let ran = with_closed_pipe(
        &[&["best", "-j", "2", "-"], many.as_slice()].concat(),
        A.as_bytes(),
    );
    assert_eq!((ran.status, ran.err.as_str()), (0, ""));
}

#[test]
fn the_largest_machine() {
    let rows = chain(2048, "128");
    let best = run(&["best"], &rows).ok();
    let line = best.text().lines().nth(2).unwrap().to_string();
    let labels: Vec<String> = (1..2048).map(|label| label.to_string()).collect();
    assert_eq!(
        line,
        format!("   1  262144  16777216  2047  {}", labels.join(" "))
    );
    let sheet = run(&["compile"], &rows).ok().out;
    assert_eq!(sheet.len(), 16 * 2047 + 12 * 2048 + 20);
    let distances = run(&["distances"], &sheet).ok();
    assert_eq!(distances.text().lines().count(), 2049);
    assert!(distances.text().ends_with("2047  262016  16769024\n"));
    assert_eq!(run(&["print"], &sheet).ok().text(), rows.replace(' ', "\t"));
    let more = run(&["best"], chain(2049, "128"));
    assert_eq!(more.status, 1);
    assert_eq!(
        more.err,
        "yeldmur: standard input: refused 5: N above 2,048 or T above 16,384: row 2048, column 6: node 2048, and 2047 is the highest\n"
    );
}

#[test]
fn the_largest_machine_of_the_finer_unit() {
    let sheet = stating(256, &run(&["compile"], chain(2048, "32")).ok().out);
    let best = run(&["best"], &sheet).ok();
    let line = best.text().lines().nth(2).unwrap();
    assert!(line.starts_with("   1  65536  16777216  2047  1 2 3 "));
    let distances = run(&["distances"], &sheet).ok();
    assert!(distances.text().ends_with("2047  65504  16769024\n"));
    // a weight of 33 is too large there
    let more = run(
        &["best"],
        stating(256, &run(&["compile"], "0 33\n").ok().out),
    );
    let said = "yeldmur: standard input: refused 4: a weight off the grid: node 0: its final weight 33 (bits 42040000) is beyond 32\n";
    assert_eq!((more.status, more.err.as_str()), (1, said));
}

#[test]
fn as_many_links_as_may_be() {
    let mut random = Random(7);
    let mut rows: String = (0..16_384 - 2_047)
        .map(|_| {
            let source = random.below(2_040);
            let next = source + 1 + random.below(7);
            format!(
                "{source} {next} {} 1 {}\n",
                random.below(9),
                random.below(100)
            )
        })
        .collect();
    rows = chain(2048, "50") + &rows;
    let listed = run(&["list", "-n64", "--json"], &rows).ok();
    assert!(is_json(listed.text().trim_end()));
    assert!(listed
        .text()
        .starts_with("{\"input\":\"-\",\"unit\":64,\"readings\":64,"));
    let drawn = run(&["draw", "-n", "64"], &rows).ok();
    assert_eq!(drawn.text().matches(" -> ").count(), 16_384 + 1);
}

// Damaged inputs to every command: refused with one message, or answered; and the place is always found.
#[test]
fn damaged_inputs() {
    let folder = Folder::new("damaged");
    let mut random = Random(5);
    let files: Vec<String> = (0..300)
        .map(|i| {
            let mut input = match i % 4 {
                0 | 2 => A.as_bytes().to_vec(),
                1 => sheet_a(),
                _ => stating(256, &sheet_a()),
            };
            for _ in 0..1 + random.below(2) {
                let place = random.below(input.len());
                input[place] = random.one_of(b"0123456789 \t\n.-x\0\x01\xff");
            }
            folder.file(&format!("{i}"), input)
        })
        .collect();
    let files: Vec<&str> = files.iter().map(String::as_str).collect();
    for command in ["list", "best", "distances", "check"] {
        let ran = run(
            &[&[command, "--json", "-j", "2"], files.as_slice()].concat(),
            "",
        );
        assert_eq!(ran.status, 1);
        assert_eq!(ran.text().lines().count(), files.len());
        assert!(ran.text().lines().all(is_json));
        assert!(!ran.text().contains("report") && !ran.err.contains("report"));
    }
    for files in files.chunks(2) {
        let ran = run(&["both", files[0], files[1]], "");
        assert!(ran.status == 0 || (ran.status == 1 && ran.err.contains(": refused ")));
        assert!(!ran.err.contains("report"), "{}", ran.err);
    }
    for command in ["compile", "print", "draw"] {
        let place = folder.path("");
        let ran = run(&[&[command, "-o", &place], files.as_slice()].concat(), "");
        assert_eq!(ran.status, 1);
        let messages = ran.err.lines();
        assert!(messages.clone().all(|line| line.contains(": refused ")));
        assert!(messages.count() < files.len() && !ran.err.contains("report"));
    }
}

// A program named dot in a folder of its own, in the place of Graphviz's.
fn with_dot(folder: &Folder, script: &str) {
    let path = folder.file("dot", format!("#!/bin/sh\n{script}\n"));
    fs::set_permissions(path, fs::Permissions::from_mode(0o755)).unwrap();
}

fn draw_with_path(path: &str, arguments: &[&str], input: &str) -> Ran {
    let mut command = command(&[&["draw"], arguments].concat());
    command.env("PATH", path);
    run_on(command, input.as_bytes())
}

#[test]
fn without_graphviz() {
    let folder = Folder::new("without_graphviz");
    for form in ["svg", "png"] {
        let ran = draw_with_path(&folder.path(""), &["-T", form], A);
        assert_eq!((ran.status, ran.text()), (2, ""));
        assert_eq!(
            ran.err,
            format!("yeldmur: standard input: {form} is drawn by dot, of Graphviz, which is not installed here; -T dot prints what it would draw\n")
        );
    }
    let plain = draw_with_path(&folder.path(""), &["-T", "dot"], A).ok();
    assert!(plain.text().starts_with("digraph"));
}

#[test]
fn a_picture_by_dot() {
    let folder = Folder::new("a_picture_by_dot");
    with_dot(&folder, "echo \"$@\"; exec /bin/cat");
    let drawn = draw_with_path(&folder.path(""), &["-T", "svg", "-n", "2"], A).ok();
    let plain = run(&["draw", "-n", "2"], A).ok();
    assert_eq!(drawn.text(), format!("-Tsvg\n{}", plain.text()));
    // a text longer than a pipe holds, both ways
    let long = draw_with_path(&folder.path(""), &["-Tsvg"], &chain(2048, "1")).ok();
    assert!(long.out.len() > 70_000);
}

#[test]
fn a_dot_that_fails() {
    let folder = Folder::new("a_dot_that_fails");
    with_dot(&folder, "echo 'no layout' >&2; exit 3");
    let ran = draw_with_path(&folder.path(""), &["-T", "png"], &chain(2048, "1"));
    assert_eq!((ran.status, ran.text()), (2, ""));
    assert_eq!(
        ran.err,
        "yeldmur: standard input: dot, of Graphviz, failed: no layout\n"
    );
}

// With Graphviz itself, where it is installed.
#[test]
fn pictures_by_graphviz() {
    let svg = run(&["draw", "-T", "svg", "-n", "3"], A);
    if svg.err.contains("not installed") {
        return;
    }
    let svg = svg.ok();
    assert!(svg.text().contains("</svg>") && svg.text().contains("rank 3, cost 2.25 (144/64)"));
    let png = run(&["draw", "-T", "png"], A).ok();
    assert!(png.out.starts_with(b"\x89PNG\r\n"));
}

// A terminal by the program script of util-linux, where it is installed: the status, and all that is shown.
fn on_a_terminal(arguments: &str) -> Option<(i32, String)> {
    let program = env!("CARGO_BIN_EXE_yeldmur");
    let output = std::process::Command::new("script")
        .args(["-qec", &format!("{program} {arguments}"), "/dev/null"])
        .stdin(Stdio::null())
        .output()
        .ok()?;
    let shown = String::from_utf8_lossy(&output.stdout).into_owned();
    Some((output.status.code()?, shown))
}

#[test]
fn a_terminal() {
    let folder = Folder::new("terminal");
    let a = folder.file("a", A);
    let Some((status, shown)) = on_a_terminal(&format!("compile {a}")) else {
        return;
    };
    assert_eq!(status, 2);
    assert!(shown.contains("name a file with -o, or say -o -"));
    let (status, shown) = on_a_terminal(&format!("both {a} {a}")).unwrap();
    assert_eq!(status, 2);
    assert!(shown.contains("no text for a terminal"));
    let (status, shown) = on_a_terminal(&format!("compile -o - {a}")).unwrap();
    assert_eq!(status, 0);
    assert!(shown.contains('\0'));
    let (status, shown) = on_a_terminal(&format!("draw -T png {a}")).unwrap();
    assert_eq!(status, 2);
    assert!(shown.contains("no text for a terminal"));
    let (status, shown) = on_a_terminal(&format!("best {a} {a} {a}")).unwrap();
    assert_eq!(status, 0);
    assert!(shown.contains("\r1 of 3\r\u{1b}[K") && shown.contains("3 of 3"));
    let (status, shown) = on_a_terminal(&format!("best {a}")).unwrap();
    assert_eq!(status, 0);
    assert!(!shown.contains(" of 1"));
}

// Away from a terminal there is no progress line.
#[test]
fn no_progress_in_files() {
    let folder = Folder::new("no_progress");
    let a = folder.file("a", A);
    run(&["best", &a, &a, &a], "").ok();
}
