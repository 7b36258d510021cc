//! The command `yeldmur`: what its subcommands do, as a library, so that tests reach its parts. All that is answered comes from the calls of
//! the crate `yeldmur`; `diagnose` alone looks at bytes by itself, those of an input, to find where it is at fault.
#![forbid(unsafe_code)]
#![deny(missing_docs)]

pub mod args;
pub mod commands;
pub mod decimal;
pub mod diagnose;
pub mod dot;
mod graphviz;
mod help;
pub mod input;
pub mod jobs;
pub mod json;
mod output;
mod progress;
mod run;

pub use run::run;
