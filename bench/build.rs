//! Builds the calls into OpenFst where its headers and a C++ compiler are there; where they are not,
//! OpenFst is left out.

use std::env;
use std::path::Path;
use std::process::Command;

fn main() {
    println!("cargo:rerun-if-changed=src/openfst.cpp");
    println!("cargo:rustc-check-cfg=cfg(openfst)");
    let out = env::var("OUT_DIR").unwrap();
    let object = Path::new(&out).join("openfst.o");
    let compiled = Command::new("g++")
        .args(["-std=c++17", "-O3", "-c", "src/openfst.cpp", "-o"])
        .arg(&object)
        .status()
        .is_ok_and(|status| status.success());
    if !compiled {
        println!("cargo:warning=OpenFst can't be had here and is left out");
        return;
    }
    println!("cargo:rustc-cfg=openfst");
    println!("cargo:rustc-link-arg={}", object.display());
    for library in ["fst", "stdc++"] {
        println!("cargo:rustc-link-arg=-l{library}");
    }
}
