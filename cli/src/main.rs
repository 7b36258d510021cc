//! The command `yeldmur`.
#![forbid(unsafe_code)]

use std::env;
use std::process::ExitCode;

fn main() -> ExitCode {
    yeldmur_cli::run(env::args_os().skip(1))
}
