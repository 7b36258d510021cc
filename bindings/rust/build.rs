//! Finds the static library that `tools/library` writes.
#![forbid(unsafe_code)]

use std::env;
use std::path::{Path, PathBuf};
use std::process::exit;

fn folder() -> PathBuf {
    match env::var_os("YELDMUR_LIB_DIR") {
        Some(given) => PathBuf::from(given),
        None => Path::new(env!("CARGO_MANIFEST_DIR")).join("../../target/staticlib"),
    }
}

fn main() {
    let folder = folder();
    let library = folder.join("libyeldmur.a");
    println!("cargo:rerun-if-env-changed=YELDMUR_LIB_DIR");
    println!("cargo:rerun-if-changed={}", library.display());
    if !library.is_file() {
        eprintln!("There is no {}.", library.display());
        eprintln!(
            "Run `tools/library` in Yeldmur's repository, which writes it to target/staticlib,"
        );
        eprintln!(
            "or name the folder that has libyeldmur.a in the environment variable YELDMUR_LIB_DIR."
        );
        exit(1);
    }
    println!("cargo:rustc-link-search=native={}", folder.display());
    println!("cargo:rustc-link-lib=static=yeldmur");
}
