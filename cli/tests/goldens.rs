//! What the command prints, held to the files in tests/golden. With YELDMUR_BLESS set they are written anew.
#![forbid(unsafe_code)]

mod common;

use std::collections::HashMap;
use std::env;
use std::fs;
use std::path::Path;

use common::{bytes, run, stating, Folder, A};

// Start 1, a node below it, negative weights, two labels, a reading without links, a node that is not reached.
const MIXED: &str = "1 2 7 8 -0.5\n1 2 7 7 -0.5\n2 4 8 8 1\n2 3 0 0 0.25\n3 4 9 9 -2\n1 0.25\n3 -1\n4 0.5\n0 6 1 1\n7 8 1 1\n";

// A barred link beside another, one on the way, a barred final node, and a node that is not even led to from a reached one.
const BARRED: &str = "0 1 1 1 5\n0 1 2 2 Infinity\n1 2 3 3 Infinity\n1 1\n2 3 4 4\n2 Infinity\n3\n";

// In the finer unit: the least weight, the lowest, one a unit below the highest, and a barred link.
fn fine() -> Vec<u8> {
    bytes(
        &[
            [7, 7, 0x3B80_0000, 1].as_slice(),
            &[8, 9, 0xC200_0000, 2],
            &[7, 7, 0x41FF_F800, 2],
            &[6, 6, 0x7F80_0000, 2],
            &[2, 0, 0, 2, 1, 0x3F00_0000, 0, 1, 0xBB80_0000],
            &[0, 64, 3, 4, 0, 256],
        ]
        .concat(),
    )
}

// Sheet A with the longer trailer.
fn a_in(unit: u32) -> Vec<u8> {
    stating(unit, &run(&["compile"], A).ok().out)
}

// A line of three nodes, each final, all of weight 0: the reading without links is the best, and heads no longer list.
const LINE: &str = "0 1 1 1\n1 2 2 2\n0\n1\n2\n";

// Six readings of one cost: two links, and then three.
const TIES: &str = "0 1 1 1\n0 1 2 2\n1 2 3 3\n1 2 4 4\n1 2 5 5\n2\n";

// Two machines with labels and readings in common and others of their own. A link that one bars is barred in both.
const LEFT: &str = "0 1 1 1 1\n0 1 2 2 0.5\n1 2 3 3 0.25\n1 2 4 4 Infinity\n1 2 5 5\n2 0.5\n";
const RIGHT: &str = "0 1 2 2 -0.25\n0 2 1 1\n1 2 3 3 1\n0 1 2 2\n1 2 4 4\n1\n2 1\n";

#[track_caller]
fn held(name: &str, printed: &str) {
    let path = Path::new(env!("CARGO_MANIFEST_DIR"))
        .join("tests/golden")
        .join(name);
    if env::var_os("YELDMUR_BLESS").is_some() {
        fs::write(&path, printed).unwrap();
    }
    let golden = fs::read_to_string(&path).unwrap_or_default();
    assert_eq!(printed, golden, "{name}");
}

// Runs on standard input.
#[track_caller]
fn on(name: &str, arguments: &[&str], input: impl AsRef<[u8]>) {
    held(name, run(arguments, input).ok().text());
}

#[test]
fn lists() {
    on("list_a.txt", &["list", "-n", "2"], A);
    on("list_mixed.txt", &["list"], MIXED);
    on("list_none.txt", &["list", "-n", "0"], A);
    on("best_mixed.txt", &["best"], MIXED);
    on("list_json.txt", &["list", "--json"], MIXED);
    on("best_json.txt", &["best", "--json"], A);
    on("list_empty_json.txt", &["list", "--json"], "0 1 1 1\n");
    on("list_barred.txt", &["list"], BARRED);
    on("best_barred.txt", &["best"], BARRED);
    on("list_barred_json.txt", &["list", "--json"], BARRED);
    let all = "0 1 1 1 Infinity\n1\n";
    on("list_all_barred.txt", &["list"], all);
    on("best_all_barred.txt", &["best"], all);
}

// For people and for programs.
#[track_caller]
fn on_both_ways(name: &str, counts: &str, input: impl AsRef<[u8]>) {
    let arguments = ["list", "-n", counts, "--json"];
    on(&format!("lists_{name}.txt"), &arguments[..3], &input);
    on(&format!("lists_{name}_json.txt"), &arguments, &input);
}

#[test]
fn lists_of_several_counts() {
    on_both_ways("a", "2,10", A);
    on_both_ways("a_fewer", "64,3,5,4,5,1", A);
    on_both_ways("zero", "0,2", A);
    on_both_ways("line", "1,2", LINE);
    on_both_ways("ties", "10,5,4,3,2,1", TIES);
    on_both_ways("mixed", "1,2,3,4,5,6,7,8", MIXED);
    on_both_ways(
        "fine",
        "1,3",
        stating(256, &run(&["compile"], TIES).ok().out),
    );
    on_both_ways("barred", "1,10", BARRED);
    on_both_ways("none", "0,3,10", "0 1 1 1\n");
    // one count that is repeated is one count
    on("list_a.txt", &["list", "-n", "2,2"], A);
    on("list_json.txt", &["list", "--json", "-n", "10,10"], MIXED);
}

#[test]
fn lists_of_several_inputs_and_counts() {
    let folder = Folder::new("several_inputs_and_counts");
    let files = [
        folder.file("a", A),
        folder.file("refused", "0 1 1 1 0.3\n"),
        folder.file("ties", TIES),
        folder.file("none", "0 1 1 1\n"),
    ];
    let files: Vec<&str> = files.iter().map(String::as_str).collect();
    for (golden, json) in [
        ("lists_inputs.txt", None),
        ("lists_inputs_json.txt", Some("--json")),
    ] {
        let first = ["list", "-n", "1,3"].into_iter().chain(json);
        let arguments: Vec<&str> = first.chain(files.iter().copied()).collect();
        let ran = run(&arguments, "");
        assert_eq!(ran.status, 1);
        held(
            golden,
            &(ran.text().to_string() + &ran.err).replace(&folder.path(""), ""),
        );
    }
}

#[test]
fn lists_of_either_unit() {
    on("list_a.txt", &["list", "-n", "2"], a_in(64));
    on("list_a_256.txt", &["list", "-n", "2"], a_in(256));
    on("list_fine.txt", &["list"], fine());
    on("list_fine_json.txt", &["list", "--json"], fine());
    on("best_fine.txt", &["best"], fine());
    on("distances_fine.txt", &["distances"], fine());
    on("distances_fine_json.txt", &["distances", "--json"], fine());
}

#[test]
fn distances() {
    on("distances_a.txt", &["distances"], A);
    on("distances_mixed.txt", &["distances"], MIXED);
    on("distances_json.txt", &["distances", "--json"], MIXED);
    on("distances_barred.txt", &["distances"], BARRED);
    on(
        "distances_barred_json.txt",
        &["distances", "--json"],
        BARRED,
    );
}

#[test]
fn rows() {
    on("print_mixed.txt", &["print"], MIXED);
    on("print_barred.txt", &["print"], BARRED);
}

#[test]
fn both() {
    let folder = Folder::new("both");
    let files = [folder.file("left", LEFT), folder.file("right", RIGHT)];
    let both = run(&["both", &files[0], &files[1]], "").ok().out;
    for (name, command) in [("both_print.txt", "print"), ("both_list.txt", "list")] {
        held(name, run(&[command], &both).ok().text());
    }
}

// Pairs for each refusal: what is said, in their order.
#[test]
fn both_refused() {
    let folder = Folder::new("both_refused");
    let inputs: HashMap<_, _> = refused().into_iter().chain(labelled()).collect();
    let mut said = String::new();
    for (first, second) in [
        ("01-short", "a"),
        ("a", "02-start"),
        ("06-climb", "01-length"),
        ("04-row-weight", "08-empty"),
        ("a", "08-field"),
        ("05-nodes-far", "08-empty"),
        ("10-zero", "06-climb-row"),
        ("10-zero", "a"),
        ("a", "10-differs"),
        ("10-zero-sheet", "10-differs"),
        ("a", "10-differs-sheet"),
        ("10-dear", "10-dear"),
        ("11-nodes", "11-nodes"),
        ("11-links", "11-links"),
        ("12-link", "12-link"),
        ("a", "12-final"),
        ("12-finer", "12-finer"),
        ("14-unit", "01-short"),
        ("a", "14-unit"),
        ("a", "14-a-256"),
        ("14-a-64", "14-a-256"),
        ("14-a-256", "14-a-64"),
        ("14-a-256", "a"),
        ("14-a-256", "10-differs-sheet"),
        ("14-a-256", "01-short"),
        ("14-a-256", "02-start"),
        ("14-a-256", "08-empty"),
        ("14-a-256", "04-row-weight"),
        ("14-a-256", "05-nodes-far"),
    ] {
        let files = [first, second].map(|name| folder.file(name, &inputs[name]));
        let ran = run(&["both", &files[0], &files[1]], "");
        assert_eq!((ran.status, ran.out.len()), (1, 0), "{first} {second}");
        said += &ran.err;
    }
    held("both_refused.txt", &said.replace(&folder.path(""), ""));
}

// Preheat ends in node 3, which may be the last one, too. Start 1, a barred link in either part, a node that no run reaches.
const PREHEAT: &str = "1 2 7 8 -0.5\n0 3 7 7\n1 3 8 8 1\n2 3 9 9 Infinity\n2 3 9 9 0.25\n3 4 1 1 0.5\n3 6 2 2\n3 64\n4 6 3 3 Infinity\n5 6 4 4\n6 -1\n";

#[test]
fn split() {
    let folder = Folder::new("split");
    let parts = ["first", "second"].map(|name| folder.path(name));
    run(&["split", "-", "3", "-o", &parts[0], &parts[1]], PREHEAT).ok();
    for (part, name) in parts.iter().zip(["first", "second"]) {
        let printed = run(&["print", part], "").ok();
        held(&format!("split_{name}.txt"), printed.text());
    }
    let listed = run(&["list", &parts[0], &parts[1]], "").ok();
    let whole = run(&["list"], PREHEAT).ok();
    let said = [listed.text(), whole.text()].concat();
    held("split_list.txt", &said.replace(&folder.path(""), ""));
}

// An input and a node for each refusal: what is said, in their order.
#[test]
fn split_refused() {
    let folder = Folder::new("split_refused");
    let inputs: HashMap<_, _> = refused().into_iter().chain(wide()).collect();
    let mut said = String::new();
    for (name, node) in [
        ("01-short", "9"),
        ("02-start", "1"),
        ("03-next", "9"),
        ("04-row-weight", "1"),
        ("05-nodes-far", "1"),
        ("06-climb", "1"),
        ("06-climb-row", "9"),
        ("08-empty", "9"),
        ("14-before-start", "9"),
        ("13", "6"),
        ("13-sheet", "6"),
        ("13", "4294967295"),
        ("13", "0"),
        ("13-sheet", "0"),
        ("13-no-start", "3"),
        ("13", "4"),
        ("13-sheet", "4"),
        ("13", "2"),
        ("13-sheet", "2"),
    ] {
        let file = folder.file(name, &inputs[name]);
        let parts = ["first", "second"].map(|name| folder.path(name));
        let ran = run(&["split", &file, node, "-o", &parts[0], &parts[1]], "");
        assert_eq!((ran.status, ran.out.len()), (1, 0), "{name} {node}");
        assert!(!folder.has("first") && !folder.has("second"));
        said += &ran.err;
    }
    held("split_refused.txt", &said.replace(&folder.path(""), ""));
}

#[test]
fn pictures() {
    on("draw_a.txt", &["draw"], A);
    on("draw_a_list.txt", &["draw", "-n", "2"], A);
    on("draw_mixed_list.txt", &["draw", "-n", "64"], MIXED);
    on("draw_no_reading.txt", &["draw", "-n", "3"], "0 1 1 1\n");
    on("draw_barred.txt", &["draw"], BARRED);
    on("draw_barred_list.txt", &["draw", "-n", "2"], BARRED);
    on("draw_fine_list.txt", &["draw", "-n", "2"], fine());
}

#[test]
fn help() {
    on("help.txt", &["--help"], "");
    for command in [
        "compile",
        "print",
        "list",
        "best",
        "distances",
        "both",
        "split",
        "draw",
        "check",
    ] {
        on(&format!("help_{command}.txt"), &[command, "--help"], "");
    }
}

// Inputs for each refusal, by name.
fn refused() -> Vec<(&'static str, Vec<u8>)> {
    let text = |text: &str| text.as_bytes().to_vec();
    let a = run(&["compile"], A).ok().out;
    let word = |place: usize, word: u32| {
        let mut changed = a.clone();
        changed[4 * place..4 * place + 4].copy_from_slice(&word.to_le_bytes());
        changed
    };
    let fine = |sheet: Vec<u8>| stating(256, &sheet);
    vec![
        ("01-length", a[1..].to_vec()),
        ("01-offset-of-links", word(32, 4)),
        ("01-offset-of-nodes", word(33, 64)),
        ("01-mark", word(24, 2)),
        ("01-weight-field", word(25, 1)),
        ("01-weight-field-barred", word(25, 0x7F80_0000)),
        ("01-sum-of-counts", word(20, 3)),
        ("01-short", vec![0; 19]),
        ("01-node-number", text("0 4294967295 1 1\n")),
        ("02-start", word(36, 4)),
        ("03-next", word(19, 4)),
        ("04-link-weight", word(10, 0.3f32.to_bits())),
        ("04-final-weight", word(31, (-0.0f32).to_bits())),
        ("04-negative-infinity", word(2, 0xFF80_0000)),
        ("04-row-weight", text("0 1 1 1 1\n1 2 5 5 -0.3\n2\n")),
        ("04-row-weight-beyond", text("0 1 1 1 1\n1\t128.000001\n")),
        ("05-nodes", text("0 2048 1 1\n2048\n")),
        ("05-nodes-far", text("0\n4294967294\n")),
        ("05-links", text(&"0 1 1 1\n".repeat(16_385))),
        ("06-climb", word(15, 1)),
        ("06-climb-row", text("0 1 1 1\n1 0 2 2\n")),
        ("08-empty", text("")),
        ("08-no-newline", text("0 1 1 1\n1")),
        ("08-field", text("0 1 1 1\n1 2 3\n")),
        ("08-carriage-return", text("0 1 1 1 1\r\n1\r\n")),
        ("08-second-final", text("3\n0 1 1 1\n3 0.5\n")),
        ("08-weight", text("0 1 1 1 1e3\n")),
        ("08-infinity", text("0 1 1 1 Infinity\n1 infinity\n")),
        ("08-byte-order-mark", text("\u{feff}0\n")),
        ("01-longer-length", fine(a.clone())[1..].to_vec()),
        ("01-longer-offset-of-links", fine(word(32, 4))),
        ("01-longer-offset-of-nodes", fine(word(33, 64))),
        ("01-longer-mark", stating(128, &word(24, 2))),
        ("14-unit", stating(128, &a)),
        ("14-before-start", stating(0, &word(36, 4))),
        ("02-longer-start", fine(word(36, 4))),
        ("04-finer-weight", fine(word(10, 0.3f32.to_bits()))),
        ("04-finer-beyond", fine(word(31, 0x4200_0400))),
    ]
}

// Inputs that a search takes, and that are refused beside another.
fn labelled() -> Vec<(&'static str, Vec<u8>)> {
    let text = |text: &str| text.as_bytes().to_vec();
    let sheet = |rows: &str| run(&["compile"], rows).ok().out;
    let (zero, differs) = ("1\n0 1  0 0 0.5\n", "0 1 1 1\n1 2 7 8\n2\n");
    vec![
        ("a", text(A)),
        ("10-zero", text(zero)),
        ("10-zero-sheet", sheet(zero)),
        ("10-differs", text(differs)),
        ("10-differs-sheet", sheet(differs)),
        ("10-dear", text("0 45 7 8 128\n45 100\n")),
        ("11-nodes", text("0 45 7 7 128\n45 100\n")),
        ("11-links", text(&"0 1 7 7 128\n".repeat(129))),
        ("12-link", text("1 2 8 8\n0 1 7 7 -64.015625\n")),
        ("12-final", text("2 127.515625\n")),
        ("12-finer", stating(256, &sheet("0 16.015625\n"))),
        ("14-a-64", a_in(64)),
        ("14-a-256", a_in(256)),
    ]
}

// Inputs that a search takes, and that do not narrow to all nodes.
fn wide() -> Vec<(&'static str, Vec<u8>)> {
    let rows = "1 2 7 7 0.5\n1 3 7 7 Infinity\n2 3 8 8\n3 4 1 1\n3\n4 5 2 2\n5 0.25\n";
    let sheet = run(&["compile"], rows).ok().out;
    let mut without = sheet.clone();
    let end = without.len();
    without[end - 4..].fill(0xFF);
    vec![
        ("13", rows.as_bytes().to_vec()),
        ("13-sheet", sheet),
        ("13-no-start", without),
    ]
}

#[test]
fn checks() {
    on("check_barred.txt", &["check"], BARRED);
    let folder = Folder::new("checks");
    let inputs = refused();
    let files: Vec<String> = inputs
        .iter()
        .map(|(name, bytes)| folder.file(name, bytes))
        .collect();
    let prefix = folder.path("");
    for (golden, first) in [
        ("check_refused.txt", vec!["check"]),
        ("check_refused_json.txt", vec!["check", "--json"]),
        ("list_refused_json.txt", vec!["list", "--json"]),
        ("list_refused_json.txt", vec!["list", "--json", "-n", "0,3"]),
    ] {
        let arguments: Vec<&str> = first
            .into_iter()
            .chain(files.iter().map(String::as_str))
            .collect();
        let ran = run(&arguments, "");
        assert_eq!(ran.status, 1);
        assert_eq!(ran.text().lines().count(), inputs.len());
        held(golden, &ran.text().replace(&prefix, ""));
    }
    for first in [&["list"][..], &["list", "-n", "0,3"]] {
        let files = files.iter().map(String::as_str);
        let arguments: Vec<&str> = first.iter().copied().chain(files).collect();
        let ran = run(&arguments, "");
        assert_eq!((ran.status, ran.text()), (1, ""));
        held("list_refused.txt", &ran.err.replace(&prefix, ""));
    }
}

#[test]
fn checks_of_either_unit() {
    let folder = Folder::new("checks_of_either_unit");
    let files = [
        folder.file("rows", A),
        folder.file("shorter", run(&["compile"], A).ok().out),
        folder.file("longer", a_in(64)),
        folder.file("fine", fine()),
    ];
    for (golden, first) in [
        ("check_units.txt", vec!["check"]),
        ("check_units_json.txt", vec!["check", "--json"]),
    ] {
        let files = files.iter().map(String::as_str);
        let arguments: Vec<&str> = first.into_iter().chain(files).collect();
        let ran = run(&arguments, "").ok();
        held(golden, &ran.text().replace(&folder.path(""), ""));
    }
}

#[test]
fn sheets_without_rows() {
    let folder = Folder::new("without_rows");
    let none = 0xFFFF_FFFF;
    let sheets = [
        ("no-nodes", bytes(&[0, 0, 0, 0, none])),
        ("no-start", bytes(&[0, 1, 0, 0, 0, 1, 0, none])),
        ("bare-start", bytes(&[0, 0, 0, 0, 1, 0, 0, 0, 2, 0, 0])),
        ("bare-last", bytes(&[0, 1, 0, 0, 0, 0, 0, 0, 2, 0, 0])),
        ("longer", a_in(64)),
        ("longer-fine", fine()),
        ("longer-no-nodes", bytes(&[0, 0, 0, 0, none, 256])),
    ];
    let files: Vec<String> = sheets
        .iter()
        .map(|(name, bytes)| folder.file(name, bytes))
        .collect();
    let mut said = String::new();
    for file in &files {
        let printed = run(&["print", file], "");
        assert_eq!((printed.status, printed.out.len()), (1, 0));
        said += &(run(&["check", file], "").ok().text().to_string() + &printed.err);
    }
    held("no_rows.txt", &said.replace(&folder.path(""), ""));
}
