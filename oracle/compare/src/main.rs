//! Runs the library beside the published Rust: on random accepted sheets, whose answers must be
//! those of the Rust, and on damaged ones, whose refusals must be those of the requirements.

mod accepted;
mod back;
mod calls;
mod checker;
mod damage;
mod lent;
mod parts;
mod refused;
mod sizes;
mod tally;
mod units;
mod writer;

use std::process::ExitCode;

use oracle::cases::Cases;
use oracle::random::Random;
use tally::Tally;

const USAGE: &str = "usage: compare SEED COUNT
  compares the library with the Rust on COUNT accepted sheets, and as many damaged ones and more";

fn compared(seed: u64, count: usize) -> Tally {
    let mut tally = Tally::default();
    let mut random = Random::new(!seed);
    for case in Cases::of_both_forms(seed).take(count) {
        accepted::compare(&mut tally, &mut random, &case);
    }
    refused::compare_each_field(&mut tally, &mut random);
    for case in Cases::of_both_forms(seed ^ 1 << 63).take(count) {
        refused::compare_damaged(&mut tally, &mut random, &case);
    }
    tally
}

fn main() -> ExitCode {
    let arguments: Vec<String> = std::env::args().skip(1).collect();
    let numbers: Vec<u64> = arguments.iter().flat_map(|a| a.parse()).collect();
    let (&[seed, count], 2) = (numbers.as_slice(), arguments.len()) else {
        eprintln!("{USAGE}");
        return ExitCode::from(2);
    };
    let tally = compared(seed, count as usize);
    println!("{tally}");
    ExitCode::from((tally.differences > 0) as u8)
}
