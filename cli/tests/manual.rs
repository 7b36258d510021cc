//! The manual page: its version, that it names every command and option, what its example shows, and what groff says of it.
#![forbid(unsafe_code)]

mod common;

use std::fs;
use std::path::{Path, PathBuf};
use std::process;

use common::{run, Folder};
use yeldmur_cli::args::{Command, COMMANDS, FLAGS};

fn path() -> PathBuf {
    Path::new(env!("CARGO_MANIFEST_DIR")).join("yeldmur.1")
}

fn page() -> String {
    fs::read_to_string(path()).unwrap()
}

#[test]
fn version() {
    let title = format!("\"yeldmur {}\"", env!("CARGO_PKG_VERSION"));
    assert!(page().lines().next().unwrap().contains(&title));
}

#[test]
fn commands_and_options() {
    let page = page();
    for name in COMMANDS.map(Command::name) {
        assert!(page.contains(&format!(".SY yeldmur\n{name}\n")), "{name}");
        assert!(page.contains(&format!(".TP\n.B {name}\n")), "{name}");
    }
    for flag in FLAGS {
        let long = flag.long.replace('-', "\\-");
        assert!(page.contains(&format!("\\-\\-{long}")), "{}", flag.long);
        let short = flag.short.map(|short| format!("\\-{short}"));
        assert!(short.is_none_or(|short| page.contains(&short)));
    }
}

// The lines of an example by its place from 1, as they are typed and shown.
fn example(place: usize) -> Vec<String> {
    let page = page();
    let shown = page.split(".EX\n").nth(place).unwrap();
    let shown = shown.split(".EE\n").next().unwrap();
    shown.lines().map(|line| line.replace("\\-", "-")).collect()
}

#[test]
fn what_the_example_shows() {
    let folder = Folder::new("example");
    let lines = example(1);
    let rows = lines[1..7].join("\n") + "\n";
    folder.file("a.txt", &rows);
    assert_eq!(lines[7], "$ yeldmur list a.txt");
    let listed = run(&["list", &folder.path("a.txt")], "").ok();
    assert_eq!(listed.text().lines().collect::<Vec<_>>(), lines[8..13]);
    assert_eq!(lines[15], "$ echo \"0 1 1 1 0.3\" | yeldmur check");
    let checked = run(&["check"], "0 1 1 1 0.3\n");
    assert_eq!(checked.text().trim_end(), lines[16..18].join(" "));
}

#[test]
fn what_the_example_of_several_counts_shows() {
    let folder = Folder::new("example_of_several_counts");
    let lines = example(2);
    assert_eq!(lines[0], "$ cat tie.txt");
    folder.file("tie.txt", lines[1..7].join("\n") + "\n");
    assert_eq!(lines[7], "$ yeldmur list -n 1,3 tie.txt");
    let listed = run(&["list", "-n", "1,3", &folder.path("tie.txt")], "").ok();
    assert_eq!(listed.text().lines().collect::<Vec<_>>(), lines[8..]);
}

#[test]
fn groff_has_nothing_to_say() {
    let groff = process::Command::new("groff")
        .args(["-man", "-ww", "-Tutf8"])
        .arg(path())
        .output();
    // where it is installed
    if let Ok(output) = groff {
        assert_eq!(String::from_utf8_lossy(&output.stderr), "");
        assert!(output.status.success());
    }
}
