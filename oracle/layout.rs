//! Lays the published files of rustfst and the stand-ins out as one source tree of links, in the
//! folder that cargo gives a build script. The published files themselves stay where they are.

use std::env;
use std::fs;
use std::os::unix::fs::symlink;
use std::path::{Path, PathBuf};

/// The folder of the published files, and of their modules inside it.
const VARIABLE: &str = "YELDMUR_RUSTFST";
const MODULES: &str = "rustfst/src";

/// Makes the tree and returns its folder.
pub fn lay_out() -> PathBuf {
    println!("cargo:rerun-if-env-changed={VARIABLE}");
    let published = env::var(VARIABLE).unwrap_or_else(|_| {
        panic!("set {VARIABLE} to the folder docs/src with the published files of rustfst")
    });
    let published = fs::canonicalize(published)
        .expect("the folder of the published files")
        .join(MODULES);
    let package = PathBuf::from(env::var("CARGO_MANIFEST_DIR").unwrap());
    let tree = PathBuf::from(env::var("OUT_DIR").unwrap()).join("rustfst");
    if tree.exists() {
        fs::remove_dir_all(&tree).unwrap();
    }
    link_all(&published, &tree);
    link_all(&package.join("../standins"), &tree);
    write_root(&published.join("lib.rs"), &tree.join("root.rs"));
    tree
}

/// Links each file below `from` into the same place below `to`. A file that is there already is an
/// error: no stand-in may hide a published file.
fn link_all(from: &Path, to: &Path) {
    println!("cargo:rerun-if-changed={}", from.display());
    fs::create_dir_all(to).unwrap();
    for entry in fs::read_dir(from).unwrap() {
        let path = entry.unwrap().path();
        let place = to.join(path.file_name().unwrap());
        if path.is_dir() {
            link_all(&path, &place);
        } else {
            symlink(&path, &place)
                .unwrap_or_else(|e| panic!("{} at {}: {e}", path.display(), place.display()));
        }
    }
}

/// A file that is included may not start with text about the whole crate, so these lines of lib.rs,
/// all of them comments, are left out. No other line is.
fn write_root(lib: &Path, root: &Path) {
    let text = fs::read_to_string(lib).unwrap();
    let code: Vec<&str> = text.lines().filter(|l| !l.starts_with("//!")).collect();
    fs::write(root, code.join("\n")).unwrap();
}

/// Puts a line after the one place where `before` stands, into a copy that takes the link's place.
#[allow(dead_code)]
pub fn insert_after(file: &Path, before: &str, line: &str) {
    let text = fs::read_to_string(file).unwrap();
    assert_eq!(text.matches(before).count(), 1, "{before:?}");
    fs::remove_file(file).unwrap();
    let changed = text.replace(before, &format!("{before}        {line}\n"));
    fs::write(file, changed).unwrap();
}
